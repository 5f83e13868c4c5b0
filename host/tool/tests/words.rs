//! The program as it is called: what it prints and the status that it ends with.

mod program;

use bargeclover::{Blank, Record};
use program::{COAST, bargeclover, file, lines, place, run, text};
use std::fs;
use std::io::Write;
use std::process::{Command, Stdio};

/// A sheet of records, the first with values and the others all zero: in edition 2 a level and a blank one, in edition 1 an unknown one.
fn sheet(edition: u32) -> Vec<u8> {
    let mut record = Record {
        row: 100,
        column: 50,
        octave: 0,
        layer: 1,
        code: 128,
        x: 50.25,
        y: 100.5,
        size: 12.5,
        response: 0.0625,
        angle: 90.0,
        values: [0; 128],
        blank: Blank::No,
    };
    let level = record;
    let blank = Record {
        blank: Blank::Yes,
        ..level
    };
    record.values[3] = 255;
    let all = [record, level, blank];
    let sheet = bargeclover::Sheet {
        edition,
        width: 320,
        height: 240,
        layers: 3,
        records: all[..1 + edition as usize].into(),
    };
    bargeclover::write_sheet(&sheet).unwrap()
}

#[test]
fn help_and_version() {
    let (said, _) = run(&["--help"], 0);
    assert_eq!(run(&["help"], 0).0, said);
    assert_eq!(run(&["-h"], 0).0, said);
    for command in ["extract", "find", "show", "check", "draw"] {
        assert!(said.contains(command));
        let (own, _) = run(&[command, "--help"], 0);
        assert_eq!(run(&["help", command], 0).0, own);
        assert!(own.starts_with(&format!("bargeclover {command}: ")));
    }
    assert!(run(&["--version"], 0).0.starts_with("bargeclover 0."));
}

#[test]
fn wrong_commands_end_with_2() {
    for words in [
        &[][..],
        &["fly"],
        &["help", "fly"],
        &["show"],
        &["show", "a", "b"],
        &["check"],
        &["find"],
        &["find", COAST, "--contrast", "much"],
        &["find", COAST, "--layers", "-1"],
        &["extract", COAST],
        &["extract", "-o", "x.sheet"],
        &["draw", COAST],
        &["draw", COAST, "-o", "x.gif"],
        &["draw", COAST, "-o", "x.png", "--zoom", "0"],
        &[
            "draw",
            COAST,
            "-o",
            "x.png",
            "--zoom",
            "99999999999999999999",
        ],
        &["draw", COAST, "s", "-o", "x.png", "--edge", "5"],
        &["draw", COAST, "s", "-o", "x.png", "--quota", "5"],
        &["draw", COAST, "-o", "x.png", "--depth", "5"],
        &["extract", COAST, "-o", "x.sheet", "--depth", "5"],
        &["extract", COAST, "-o", "x.sheet", "--edition", "two"],
        &["extract", COAST, "-o", "x.sheet", "--only-points"],
        &["extract", COAST, "-o", "x.sheet", "--points", COAST],
        &["find", COAST, "--points", "x.csv"],
        &["find", COAST, "--edition", "2"],
        &["find", COAST, "--depth", "5"],
        &["find", COAST, "--quota", "-1"],
        &["find", COAST, "--quota", "5", "--depth", "deep"],
        &["draw", "a", "b", "c", "-o", "x.png"],
        &["find", COAST, "--wings"],
    ] {
        let (said, complained) = run(words, 2);
        assert_eq!(said, "");
        assert!(complained.starts_with("bargeclover: "), "{complained}");
    }
}

#[test]
fn what_is_refused_ends_with_1_and_says_what_to_change() {
    let refused = |words: &[&str], part: &str| {
        let (_, complained) = run(words, 1);
        assert!(complained.contains(part), "{complained}");
    };
    refused(&["find", COAST, "--contrast", "1.5"], "number 4");
    refused(
        &["find", COAST, "--contrast", "nan"],
        "--contrast from 0 to 1",
    );
    refused(&["find", COAST, "--edge", "0.5"], "--edge from 1 to 1000");
    refused(&["find", COAST, "--sigma", "inf"], "--sigma from 0.5 to 16");
    refused(&["find", COAST, "--layers", "16"], "number 2");
    refused(&["find", COAST, "--layers", "0"], "--layers from 1 to 15");
    refused(
        &["find", COAST, "--layers", "18446744073709551615"],
        "--layers from 1 to 15",
    );
    refused(&["find", COAST, "--quota", "0"], "--quota of 1 or more");
    refused(&["find", COAST, "--quota", "0"], "number 5");
    for depth in ["13", "4294967295"] {
        refused(
            &[
                "draw", COAST, "-o", "x.png", "--quota", "9", "--depth", depth,
            ],
            "--depth from 0 to 12",
        );
    }
    let no = file("no.pgm", b"P6 1 1 255 abc");
    refused(&["find", &no], "not a PGM picture");
    let wide = file("wide.pgm", b"P5 9000 1 255 abc");
    refused(&["find", &wide], "number 1");
    let long = file("long.pgm", &[b"P5 5000 1 255 ", &[0; 5000][..]].concat());
    refused(&["find", &long, "--double"], "leave out --double");
    for edition in ["0", "3", "15", "4294967295"] {
        let words = ["extract", COAST, "-o", "x.sheet", "--edition", edition];
        refused(&words, "number 4");
        refused(&words, "give --edition 2 or 1");
    }
    let other = file("other.sheet", &sheet(2));
    refused(&["draw", &no, &other, "-o", "x.png"], "not a PGM picture");
    let small = file("small.pgm", b"P5 1 1 255 a");
    refused(
        &["draw", &small, &other, "-o", "x.png"],
        "the frame that the sheet was made from",
    );
}

#[test]
fn what_is_not_there_ends_with_3() {
    for words in [
        &["find", "no/such.pgm"][..],
        &["show", "no/such.sheet"],
        &["check", "no/such.sheet"],
        &["check", "."],
        &["extract", "no/such.pgm", "-o", "x.sheet"],
        &["extract", COAST, "-o", "no/such/x.sheet"],
        &["extract", COAST, "-o", "x.sheet", "--points", "no/such.csv"],
        &["draw", COAST, "-o", "no/such/x.png"],
        &["draw", COAST, "no/such.sheet", "-o", "x.png"],
    ] {
        let (_, complained) = run(words, 3);
        assert!(complained.contains("can't be"), "{complained}");
    }
}

#[test]
fn a_sheet_is_shown_and_checked() {
    let good = file("good.sheet", &sheet(2));
    let words = "edition 2, 320 x 240 cells, 3 layers, 3 records, of them 1 level (read, all zero), 1 blank (no cell read)";
    let (said, _) = run(&["show", &good], 0);
    assert_eq!(
        said.lines().next(),
        Some(format!("{good}: {words}").as_str())
    );
    let last = |l: &str| l.split_whitespace().last().map(String::from);
    let column: Vec<_> = said.lines().skip(2).filter_map(last).collect();
    assert_eq!(column, ["patch", "values", "level", "blank"]);
    assert_eq!(
        run(&["check", &good], 0).0,
        format!("{good}: sound: {words}\n")
    );
    let (csv, _) = run(&["show", &good, "--csv"], 0);
    assert_eq!(csv.lines().count(), 4);
    assert!(
        csv.contains("\n0,50.25,100.5,12.5,0.0625,90,0,1,128,100,50,0,0,0,255,0,"),
        "{csv}"
    );
    let (one, _) = run(&["show", &good, "--record", "0"], 0);
    assert!(one.contains("response  0.0625") && one.contains("255"));
    assert!(one.contains("\n  patch     values (not all zero)\n"));
    let (one, _) = run(&["show", &good, "--record", "1"], 0);
    assert!(one.contains("\n  patch     level (read, all zero)\n"));
    let (one, _) = run(&["show", &good, "--record", "2"], 0);
    assert!(one.contains("\n  patch     blank (no cell read)\n"));
    run(&["show", &good, "--record", "3"], 2);
}

#[test]
fn edition_1_is_shown_and_checked() {
    let old = file("old.sheet", &sheet(1));
    let words = "edition 1, 320 x 240 cells, 3 layers, 2 records, of them 1 unknown (all zero, level or blank: edition 1 can't say which)";
    assert_eq!(
        run(&["check", &old], 0).0,
        format!("{old}: sound: {words}\n")
    );
    let (said, _) = run(&["show", &old], 0);
    assert!(
        said.contains(words) && said.ends_with("  unknown\n"),
        "{said}"
    );
    assert!(run(&["show", &old, "--csv"], 0).0.ends_with(",unknown\n"));
    let (one, _) = run(&["show", &old, "--record", "1"], 0);
    assert!(one.contains("\n  patch     unknown (all zero, level or blank"));
}

/// Sheets that were written before there was another edition.
#[test]
fn old_sheets_are_read() {
    for (name, words) in [
        ("coast", "320 x 240 cells, 3 layers, 16 records\n"),
        ("squares", "96 x 80 cells, 2 layers, 4 records\n"),
        ("none", "32 x 24 cells, 3 layers, 0 records\n"),
        (
            "zeros",
            "7 records, of them 3 unknown (all zero, level or blank: ",
        ),
    ] {
        let path = format!(
            "{}/../../frames/edition1/{name}.sheet",
            env!("CARGO_MANIFEST_DIR")
        );
        let (said, _) = run(&["check", &path], 0);
        assert!(
            said.contains(".sheet: sound: edition 1, ") && said.contains(words),
            "{said}"
        );
    }
}

#[test]
fn what_is_wrong_with_a_sheet_is_told() {
    let good = file("sound.sheet", &sheet(2));
    let bent = |name: &str, part: &str, bend: &dyn Fn(&mut Vec<u8>)| {
        let mut bytes = sheet(2);
        bend(&mut bytes);
        let path = file(name, &bytes);
        let (said, _) = run(&["check", &good, &path], 1);
        assert!(said.contains("number 8") && said.contains(part), "{said}");
        assert!(said.contains("sound: "));
        let (_, told) = run(&["show", &path], 1);
        assert!(told.contains("number 8") && told.contains(part), "{told}");
    };
    bent("short.sheet", "cut short", &|b| {
        b.pop();
    });
    bent(
        "edition.sheet",
        "its edition is 3, and 1 and 2 are read",
        &|b| {
            b[0] = 0x30 | b[0] & 15;
        },
    );
    bent("five.sheet", "record 1: one of the five zero bits", &|b| {
        b[8 + 154 + 5] |= 1;
    });
    bent(
        "blank.sheet",
        "record 2: its blank bit is set, and not all",
        &|b| {
            b[8 + 2 * 154 + 153] = 7;
        },
    );
}

#[test]
fn from_a_frame_to_a_sheet_and_its_picture() {
    let (sheet, picture) = (place("coast.sheet"), place("coast.svg"));
    let (sheet, picture) = (sheet.to_str().unwrap(), picture.to_str().unwrap());
    for more in [
        &[][..],
        &["--double"],
        &["--layers", "5", "--contrast", "0.02"],
    ] {
        let words = [&["extract", COAST, "-o", sheet], more].concat();
        let (said, _) = run(&words, 0);
        assert!(said.contains(" records, the directions of "), "{said}");
        run(&["check", sheet], 0);
        run(&["draw", COAST, sheet, "-o", picture], 0);
        // the sheet lists what is found
        let (listed, _) = run(&[&["find", COAST, "--csv"], more].concat(), 0);
        let (shown, _) = run(&["show", sheet, "--csv"], 0);
        assert_eq!(shown.lines().count(), listed.lines().count());
        for (a, b) in shown.lines().zip(listed.lines()) {
            assert!(a.starts_with(b), "{a} {b}");
        }
        let svg = fs::read_to_string(picture).unwrap();
        assert_eq!(svg.matches("<title>").count(), listed.lines().count() - 1);
    }
    assert_eq!(run(&["extract", COAST, "-q", "-o", sheet], 0).0, "");
    let o = bargeclover(&["extract", COAST, "-o", "-"]);
    assert_eq!(o.stdout, fs::read(sheet).unwrap());
}

#[test]
fn either_edition_is_written() {
    let [first, second, none] = ["1.sheet", "2.sheet", "none.sheet"].map(place);
    let [first, second, none] = [&first, &second, &none].map(|p| p.to_str().unwrap());
    let (said, _) = run(&["extract", COAST, "--edition", "1", "-o", first], 0);
    assert!(said.contains("1.sheet: edition 1, "), "{said}");
    let (said, _) = run(&["extract", COAST, "--edition=2", "-o", second], 0);
    assert!(said.contains("2.sheet: edition 2, "), "{said}");
    run(&["extract", COAST, "-o", none], 0);
    assert_eq!(fs::read(second).unwrap(), fs::read(none).unwrap());
    // every patch of the coast has values, so that the sheets differ in their first four bits alone
    let (mut a, b) = (fs::read(first).unwrap(), fs::read(second).unwrap());
    assert_eq!((a[0] >> 4, b[0] >> 4), (1, 2));
    a[0] ^= 0x30;
    assert!(a == b);
}

#[test]
fn a_quota_keeps_some_of_them() {
    let (sheet, picture) = (place("thinned.sheet"), place("thinned.svg"));
    let (sheet, picture) = (sheet.to_str().unwrap(), picture.to_str().unwrap());
    for more in [&["--quota", "40"][..], &["--quota", "40", "--depth", "0"]] {
        let all = run(&["find", COAST, "--csv", "--double"], 0).0;
        let words = [&["find", COAST, "--csv", "--double"], more].concat();
        let (some, told) = run(&words, 0);
        // in the same order, each one of all
        let (all, some) = (lines(&all), lines(&some));
        let mut rest = all.iter();
        assert!(some.iter().all(|s| rest.any(|a| a == s)));
        assert!(!some.is_empty() && some.len() < all.len());
        assert_eq!(run(&[&words, &["-q"][..]].concat(), 0).1, "");

        // every command says the same of it
        let tally = told.trim_end();
        assert!(tally.contains(" of 8 x 8 fields of the frame "), "{tally}");
        let words = [&["find", COAST, "--double"], more].concat();
        assert!(run(&words, 0).0.starts_with(tally));
        let words = [&["extract", COAST, "--double", "-o", sheet], more].concat();
        assert!(run(&words, 0).0.contains(tally));
        let words = [&["draw", COAST, "--double", "-o", picture], more].concat();
        assert_eq!(run(&words, 0).0, format!("{picture}: {tally}\n"));

        // the sheet has those that are found, and the picture all
        let shown = run(&["show", sheet, "--csv"], 0).0;
        let shown = lines(&shown);
        assert_eq!(shown.len(), some.len());
        assert!(shown.iter().zip(&some).all(|(a, b)| a.starts_with(b)));
        let svg = fs::read_to_string(picture).unwrap();
        let number = |before: &str| {
            let (_, rest) = tally.split_once(before).unwrap();
            rest.split(' ').next().unwrap().parse::<usize>().unwrap()
        };
        assert_eq!(svg.matches("<circle ").count(), number(" of "));
        assert!(svg.contains(&format!("kept: {} of ", number("kept "))));
        assert_eq!(svg.contains(">cuts<"), more.len() == 2);
    }
    let large = run(
        &["find", COAST, "--csv", "--quota", "18446744073709551615"],
        0,
    );
    assert_eq!(large.0, run(&["find", COAST, "--csv"], 0).0);
}

#[test]
fn a_roll_into_a_folder() {
    let folder = place("roll");
    let _ = fs::remove_dir_all(&folder);
    fs::create_dir(&folder).unwrap();
    let to = folder.to_str().unwrap();
    let small = file("small frame.pgm", &coast::frame(80, 60, 3).to_pgm());
    let bad = file("bad.pgm", b"P6");
    run(&["extract", COAST, &small, "-o", to], 0);
    run(
        &[
            "check",
            &format!("{to}/coast.sheet"),
            &format!("{to}/small frame.sheet"),
        ],
        0,
    );
    fs::remove_file(folder.join("coast.sheet")).unwrap();
    let (said, complained) = run(&["extract", &bad, COAST, "-o", to], 1);
    assert!(said.contains("coast.sheet: ") && complained.contains("1 of 2 frames have no sheet"));
    assert!(!folder.join("bad.sheet").exists());
    run(&["check", &format!("{to}/coast.sheet")], 0);
    let (_, complained) = run(&["extract", &small, "-o", &small], 2);
    assert!(complained.contains("the place of the frame"));
    assert!(
        run(&["extract", COAST, COAST, "-o", to], 2)
            .1
            .contains("two frames")
    );
    assert!(
        run(&["extract", COAST, &small, "-o", "x.sheet"], 2)
            .1
            .contains("want a folder")
    );
}

#[test]
fn pictures_are_written_whole() {
    let good = file("drawn.sheet", &sheet(2));
    for (name, starts) in [
        ("a.png", &b"\x89PNG\r\n\x1a\n"[..]),
        ("a.svg", b"<svg xmlns="),
    ] {
        let out = place(name);
        let to = out.to_str().unwrap();
        for words in [
            &["draw", COAST, "-o", to][..],
            &["draw", COAST, "-o", to, "--double", "-z", "1"],
            &["draw", COAST, "-o", to, "--quota", "30"],
            &[
                "draw", COAST, "-o", to, "--double", "--quota", "9", "-z", "1",
            ],
            &["draw", COAST, &good, "-o", to],
        ] {
            run(words, 0);
            assert!(fs::read(&out).unwrap().starts_with(starts));
            fs::remove_file(&out).unwrap();
        }
    }
    let svg = place("b.svg");
    run(&["draw", COAST, &good, "-o", svg.to_str().unwrap()], 0);
    let svg = fs::read_to_string(svg).unwrap();
    assert_eq!(svg.matches("<title>").count(), 3);
    for word in ["values", "level", "blank"] {
        assert_eq!(svg.matches(&format!(", {word}</title>")).count(), 1);
    }
}

#[test]
fn standard_input_and_a_reader_that_stops() {
    let mut child = Command::new(env!("CARGO_BIN_EXE_bargeclover"))
        .args(["find", "-", "--csv"])
        .stdin(Stdio::piped())
        .stdout(Stdio::piped())
        .spawn()
        .unwrap();
    let frame = fs::read(COAST).unwrap();
    child.stdin.take().unwrap().write_all(&frame).unwrap();
    let o = child.wait_with_output().unwrap();
    assert!(o.status.success());
    assert_eq!(text(&o.stdout), run(&["find", COAST, "--csv"], 0).0);

    // nobody reads: no complaint and no panic
    let mut child = Command::new(env!("CARGO_BIN_EXE_bargeclover"))
        .args(["find", COAST, "--double", "--contrast", "0"])
        .stdout(Stdio::piped())
        .stderr(Stdio::piped())
        .spawn()
        .unwrap();
    drop(child.stdout.take());
    let o = child.wait_with_output().unwrap();
    assert_eq!(o.status.code(), Some(0));
    assert_eq!(text(&o.stderr), "");
}
