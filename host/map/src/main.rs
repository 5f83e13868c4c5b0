//! map: writes docs/crates.svg, the picture of the crates, from crates.txt: a band for each group, a box for each crate, and lines
//! between the crates of a group. The test holds the file to what is drawn here, so that it can't go stale.
//! With `costs` behind it, it writes the table of what the gate costs into docs/ARCHITECTURE.md, from what the last gate left.

mod costs;
mod crates;
mod draw;

use std::fs;
use std::path::{Path, PathBuf};

fn root() -> PathBuf {
    Path::new(env!("CARGO_MANIFEST_DIR")).join("../..")
}

fn groups() -> Vec<crates::Group> {
    crates::groups(&fs::read_to_string(root().join("crates.txt")).unwrap())
}

fn drawn() -> String {
    draw::picture(&groups())
}

fn main() {
    if std::env::args().nth(1).as_deref() == Some("costs") {
        let said =
            fs::read_to_string(root().join("host/target/ci.out")).expect("run the gate first");
        let map = root().join("docs/ARCHITECTURE.md");
        let page = fs::read_to_string(&map).unwrap();
        fs::write(map, costs::replaced(&page, &costs::table(&groups(), &said))).unwrap();
    } else {
        fs::write(root().join("docs/crates.svg"), drawn()).unwrap();
    }
}

#[test]
fn the_picture_is_of_the_list() {
    let kept = fs::read_to_string(root().join("docs/crates.svg")).unwrap();
    assert!(kept == drawn(), "docs/crates.svg: run `cargo run -p map`");
}
