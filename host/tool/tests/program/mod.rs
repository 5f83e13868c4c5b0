//! The program, as tests call it.

use std::fs;
use std::path::{Path, PathBuf};
use std::process::{Command, Output, Stdio};

pub fn bargeclover(words: &[&str]) -> Output {
    let mut program = Command::new(env!("CARGO_BIN_EXE_bargeclover"));
    program.args(words).stdin(Stdio::null()).output().unwrap()
}

pub fn text(bytes: &[u8]) -> &str {
    std::str::from_utf8(bytes).unwrap()
}

/// Runs and holds to a status; answers what was printed and what was complained.
pub fn run(words: &[&str], status: i32) -> (String, String) {
    let o = bargeclover(words);
    let (said, complained) = (text(&o.stdout), text(&o.stderr));
    assert_eq!(
        o.status.code(),
        Some(status),
        "{words:?}: {said}{complained}"
    );
    (said.into(), complained.into())
}

pub fn place(name: &str) -> PathBuf {
    Path::new(env!("CARGO_TARGET_TMPDIR")).join(name)
}

pub fn file(name: &str, bytes: &[u8]) -> String {
    let path = place(name);
    fs::write(&path, bytes).unwrap();
    path.to_str().unwrap().into()
}

pub const COAST: &str = concat!(env!("CARGO_MANIFEST_DIR"), "/../../frames/coast.pgm");

/// The lines of a table without their numbers.
pub fn lines(csv: &str) -> Vec<&str> {
    let each = csv.lines().skip(1);
    each.map(|l| l.split_once(',').unwrap().1).collect()
}
