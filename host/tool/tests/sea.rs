//! Two small frames of the sea, `frames/sea-a.pgm` and `frames/sea-b.pgm`, each with a point set by hand. The first point lies on calm
//! sea, which is read and level; the second is a mark in a corner, where no cell can be read. Both have 128 zeros: edition 1 leaves both
//! unknown, edition 2 tells them apart. The frames are made here; with SEA_WRITE=1 they are written, and else held to what is made.
//! The commands that README.md shows of them are run, and what they print is held to what it shows.

mod readme;

use bargeclover::{Blank, read_sheet};
use readme::{folder, ran, repository, shown};
use std::fs;
use std::path::Path;

const WIDTH: usize = 64;
const HEIGHT: usize = 48;
const FILES: [&str; 4] = ["sea-a.pgm", "sea-a.csv", "sea-b.pgm", "sea-b.csv"];

/// Sea of one tone with an islet that is lit from the left, and perhaps a white mark in the upper left corner.
fn frame((x, y): (usize, usize), marked: bool) -> Vec<u8> {
    const REACH: usize = 49;
    let mut bytes = format!("P5\n{WIDTH} {HEIGHT}\n255\n").into_bytes();
    for row in 0..HEIGHT {
        for column in 0..WIDTH {
            let (dx, dy) = (column.abs_diff(x), row.abs_diff(y));
            let inside = REACH.saturating_sub(dx * dx + dy * dy);
            let light = 60 + 12 * (7 + x).saturating_sub(column).min(14);
            let islet = 52 + light * inside * inside / (REACH * REACH);
            let mark = marked && (row < 6 && column < 2 || row < 2 && column < 6);
            bytes.push(if mark { 235 } else { islet as u8 });
        }
    }
    bytes
}

#[test]
fn the_frames_are_as_they_are_made() {
    let lines = "x,y,size\n";
    let made = [
        frame((12, 30), false),
        format!("{lines}44,20,2\n").into_bytes(),
        frame((40, 30), true),
        format!("{lines}0,0,0.25\n").into_bytes(),
    ];
    for (name, bytes) in FILES.iter().zip(made) {
        let file = repository().join("frames").join(name);
        if std::env::var("SEA_WRITE").is_ok_and(|v| v == "1") {
            fs::write(&file, &bytes).unwrap();
        }
        assert!(fs::read(&file).unwrap() == bytes, "{name} is another");
    }
}

/// What a command prints.
fn printed(folder: &Path, words: &[&str]) -> String {
    let (said, complained, status) = ran(folder, words);
    assert_eq!((complained.as_str(), status), ("", Some(0)), "{words:?}");
    said
}

#[test]
fn the_commands_of_the_readme_print_what_it_shows() {
    let folder = folder("readme", &FILES);
    let commands = shown("Two sea frames");
    assert_eq!(commands.len(), 5);
    for (words, text) in commands {
        let words: Vec<&str> = words.split_whitespace().collect();
        assert_eq!(printed(&folder, &words), text, "{words:?}");
    }
}

#[test]
fn both_have_128_zeros_and_edition_2_tells_them_apart() {
    let folder = folder("sea", &FILES);
    let last = |frame: &str, edition: &str| {
        let [pgm, csv] = ["pgm", "csv"].map(|e| format!("frames/{frame}.{e}"));
        let words = ["extract", &pgm, "--points", &csv, "--edition", edition];
        printed(&folder, &[&words[..], &["-o", "a.sheet"]].concat());
        let sheet = read_sheet(&fs::read(folder.join("a.sheet")).unwrap()).unwrap();
        // the islet is found before it
        assert!(sheet.records.len() > 1);
        let (point, found) = sheet.records.split_last().unwrap();
        assert!(
            found
                .iter()
                .all(|r| r.values != [0; 128] && r.blank == Blank::No)
        );
        assert_eq!(point.values, [0; 128]);
        point.blank
    };
    assert_eq!(last("sea-a", "1"), Blank::Unknown);
    assert_eq!(last("sea-b", "1"), Blank::Unknown);
    assert_eq!(last("sea-a", "2"), Blank::No);
    assert_eq!(last("sea-b", "2"), Blank::Yes);
}
