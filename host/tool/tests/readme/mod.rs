//! The commands that README.md shows, and what they print.

use std::fs;
use std::path::{Path, PathBuf};
use std::process::Command;

pub fn repository() -> PathBuf {
    Path::new(env!("CARGO_MANIFEST_DIR")).join("../..")
}

/// The commands of the page that stand under a heading, and what is shown behind each.
pub fn shown(heading: &str) -> Vec<(String, String)> {
    let page = fs::read_to_string(repository().join("README.md")).unwrap();
    let (_, rest) = page.split_once(&format!("\n### {heading}\n")).unwrap();
    let part = rest.split("\n#").next().unwrap();
    let mut all: Vec<(String, String)> = Vec::new();
    for line in part.lines().filter_map(|l| l.strip_prefix("    ")) {
        if let Some(words) = line.strip_prefix("bargeclover ") {
            all.push((words.into(), String::new()));
        } else if let Some((_, text)) = all.last_mut() {
            *text += line;
            text.push('\n');
        }
    }
    all
}

/// A folder of its own with frames in it, where a command of the page finds them.
pub fn folder(name: &str, frames: &[&str]) -> PathBuf {
    let folder = Path::new(env!("CARGO_TARGET_TMPDIR")).join(name);
    let _ = fs::remove_dir_all(&folder);
    fs::create_dir_all(folder.join("frames")).unwrap();
    for name in frames {
        let from = repository().join("frames").join(name);
        fs::copy(from, folder.join("frames").join(name)).unwrap();
    }
    folder
}

/// What a command prints, its complaint and its status.
pub fn ran(folder: &Path, words: &[&str]) -> (String, String, Option<i32>) {
    let mut program = Command::new(env!("CARGO_BIN_EXE_bargeclover"));
    let o = program.args(words).current_dir(folder).output().unwrap();
    let text = |bytes| String::from_utf8(bytes).unwrap();
    (text(o.stdout), text(o.stderr), o.status.code())
}
