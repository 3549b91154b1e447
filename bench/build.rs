//! Writes the module lines that compile the three Rust files where they lie, so that no copy of them
//! and no path of one machine stands in this folder. The archive is linked by the crate.

use std::path::{Path, PathBuf};
use std::process::{self, Command};
use std::{env, fs};

const DEFAULT_SOURCES: &str = "../shared/docs/src";
const RADIO: &str = "lib-stm32/src/drivers/radio";

fn main() {
    write_modules();
    println!("cargo:rustc-env=BENCH_RUSTC={}", compiler());
}

fn write_modules() {
    let radio = sources().join(RADIO);
    let text = format!(
        "#[allow(dead_code)]\npub mod w26x {{\n{}{}}}\n#[allow(dead_code)]\npub mod w36x {{\n{}}}\n",
        module(&radio, "w26x", "at_protocol"),
        module(&radio, "w26x", "edm_protocol"),
        module(&radio, "w36x", "at_protocol"),
    );
    let out = Path::new(&variable("OUT_DIR")).join("sources.rs");
    fs::write(out, text).expect("OUT_DIR can be written");
}

/// A relative RUST_SOURCES is seen from the project's root, which is the folder above this one.
fn sources() -> PathBuf {
    println!("cargo:rerun-if-env-changed=RUST_SOURCES");
    let given = env::var("RUST_SOURCES").unwrap_or_else(|_| DEFAULT_SOURCES.to_string());
    PathBuf::from(variable("CARGO_MANIFEST_DIR")).join("..").join(given)
}

fn module(radio: &Path, folder: &str, name: &str) -> String {
    let file = radio.join(folder).join(name).with_extension("rs");
    if !file.is_file() {
        eprintln!("the Rust to measure is missing: {} (set RUST_SOURCES)", file.display());
        process::exit(1);
    }
    println!("cargo:rerun-if-changed={}", file.display());
    format!("    #[path = {:?}]\n    pub mod {name};\n", file.display().to_string())
}

/// The compiler's own words, for the head of the table: the machine that measures may have none.
fn compiler() -> String {
    let output = Command::new(variable("RUSTC")).arg("--version").output().expect("RUSTC runs");
    String::from_utf8_lossy(&output.stdout).trim().to_string()
}

fn variable(name: &str) -> String {
    env::var(name).expect("cargo sets this variable for a build script")
}
