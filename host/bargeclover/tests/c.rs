//! The header is C's, and the examples in C compile, link and print what they are to print.

use std::env;
use std::path::{Path, PathBuf};
use std::process::Command;

fn archive() -> PathBuf {
    let folder = match env::var_os("BARGECLOVER_LIB_DIR") {
        Some(named) => PathBuf::from(named),
        None => Path::new(env!("CARGO_MANIFEST_DIR")).join("../target/native"),
    };
    folder.join("libbargeclover.a")
}

/// What an example in C prints.
fn said(example: &str) -> String {
    let repository = Path::new(env!("CARGO_MANIFEST_DIR")).join("../..");
    let program = Path::new(env!("CARGO_TARGET_TMPDIR")).join(example);
    let compiler = env::var("CC").unwrap_or_else(|_| "cc".into());
    let compiled = Command::new(compiler)
        .args(["-std=c99", "-Wall", "-Wextra", "-pedantic", "-Werror"])
        .arg("-I")
        .arg(repository.join("include"))
        .arg(repository.join(format!("host/examples/{example}.c")))
        .arg(archive())
        .arg("-o")
        .arg(&program)
        .status()
        .unwrap();
    assert!(compiled.success());
    let ran = Command::new(&program).output().unwrap();
    assert!(ran.status.success());
    String::from_utf8(ran.stdout).unwrap()
}

#[test]
fn the_c_example_runs() {
    let said = said("find");
    assert!(said.starts_with("x 5, y 5, size "), "{said}");
    assert!(said.ends_with("octave word 8388864, moves 0\n"), "{said}");
    assert_eq!(said.lines().count(), 1);
}

#[test]
fn the_sheet_of_a_small_octave() {
    let lines = [
        "the sheet: accepted\n",
        "another angle: record 0 differs in its angle\n",
        "cut short: refused with number 8\n",
    ];
    assert_eq!(said("check"), lines.concat());
}
