//! Writes the module lines that compile the three Rust files where they lie, so that no copy of them
//! and no path of one machine stands in this folder.

use std::path::{Path, PathBuf};
use std::{env, fs, process};

const DEFAULT_SOURCES: &str = "../shared/docs/src";
const RADIO: &str = "lib-stm32/src/drivers/radio";

fn main() {
    println!("cargo:rerun-if-env-changed=RUST_SOURCES");
    let given = env::var("RUST_SOURCES").unwrap_or_else(|_| DEFAULT_SOURCES.to_string());
    let radio = project_root().join(given).join(RADIO);
    let text = format!(
        "pub mod w26x {{\n{}{}}}\npub mod w36x {{\n{}}}\n",
        module(&radio, "w26x", "at_protocol"),
        module(&radio, "w26x", "edm_protocol"),
        module(&radio, "w36x", "at_protocol"),
    );
    let out = Path::new(&variable("OUT_DIR")).join("sources.rs");
    fs::write(out, text).expect("OUT_DIR can be written");
}

/// A relative RUST_SOURCES is seen from the project's root, two folders above this one.
fn project_root() -> PathBuf {
    PathBuf::from(variable("CARGO_MANIFEST_DIR")).join("../..")
}

fn module(radio: &Path, folder: &str, name: &str) -> String {
    let file = radio.join(folder).join(name).with_extension("rs");
    if !file.is_file() {
        eprintln!(
            "a file that the driver is built with is missing: {} (set RUST_SOURCES)",
            file.display()
        );
        process::exit(1);
    }
    println!("cargo:rerun-if-changed={}", file.display());
    format!("    #[path = {:?}]\n    pub mod {name};\n", file.display().to_string())
}

fn variable(name: &str) -> String {
    env::var(name).expect("cargo sets this variable for a build script")
}
