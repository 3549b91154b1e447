//! Finds libabi.a: in the folder that `MIRVONCLE_ARCHIVE` names, else where `./build abi`
//! writes it. An archive of another version ends the build here.

use std::path::{Path, PathBuf};
use std::{env, fs, process};

/// The calls' version is in the name of this symbol. `src/sys.rs` refers to it too, so that an
/// archive which gets past this file does not link.
const VERSION: &str = "mirvoncle_version_2";

fn main() {
    println!("cargo:rerun-if-env-changed=MIRVONCLE_ARCHIVE");
    let folder = match env::var_os("MIRVONCLE_ARCHIVE") {
        Some(folder) => PathBuf::from(folder),
        None => Path::new(&env::var_os("CARGO_MANIFEST_DIR").expect("cargo sets it"))
            .join("../../target/staticlib"),
    };
    let archive = folder.join("libabi.a");
    println!("cargo:rerun-if-changed={}", archive.display());
    if !archive.is_file() {
        end(&format!(
            "{} is not there: write it with `./build abi`, or name its folder in MIRVONCLE_ARCHIVE",
            archive.display()
        ));
    }
    match fs::read(&archive) {
        Ok(bytes) if !has_version(&bytes) => end(&format!(
            "{} is of another version, it has no {VERSION}: write it anew with `./build abi`",
            archive.display()
        )),
        Ok(_) => {}
        Err(error) => end(&format!("{} cannot be read: {error}", archive.display())),
    }
    println!("cargo:rustc-link-search=native={}", folder.display());
    println!("cargo:rustc-link-lib=static=abi");
}

/// A zero byte ends each name in an archive, so that `mirvoncle_version_20` is another one.
fn has_version(archive: &[u8]) -> bool {
    let name = [VERSION.as_bytes(), &[0]].concat();
    archive.windows(name.len()).any(|part| part == name)
}

fn end(message: &str) -> ! {
    eprintln!("{message}");
    process::exit(1)
}
