//! Brings `libbargeclover.a` up to date and links it: `host/native-lib` makes it from the proved crates of this repository.
//! BARGECLOVER_LIB_DIR names a folder that has the archive already, for a machine without the Rattle kit.

use std::env;
use std::path::{Path, PathBuf};
use std::process::Command;

fn main() {
    println!("cargo::rerun-if-env-changed=BARGECLOVER_LIB_DIR");
    println!("cargo::rustc-link-lib=static=bargeclover");
    if let Some(folder) = env::var_os("BARGECLOVER_LIB_DIR") {
        let folder = PathBuf::from(folder);
        let archive = folder.join("libbargeclover.a");
        assert!(archive.is_file(), "there is no {}", archive.display());
        println!("cargo::rerun-if-changed={}", archive.display());
        println!("cargo::rustc-link-search=native={}", folder.display());
        return;
    }
    let host = Path::new(env!("CARGO_MANIFEST_DIR")).parent().unwrap();
    let script = host.join("native-lib");
    for changes in ["native-lib", "../crates.txt", "../crates"] {
        println!("cargo::rerun-if-changed={}", host.join(changes).display());
    }
    let ended = Command::new(&script).status();
    assert!(
        ended.as_ref().is_ok_and(|s| s.success()),
        "{} failed: {ended:?}",
        script.display()
    );
    let folder = host.join("target/native");
    println!("cargo::rustc-link-search=native={}", folder.display());
}
