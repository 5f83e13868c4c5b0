//! `check --against`, as it is called: what is printed of sheets that are as the rules give them, of sheets that are not, and the status.

mod program;
mod readme;

use bargeclover::{Blank, Record, Sheet, read_sheet, write_sheet};
use program::{COAST, bargeclover, file, lines, place, run, text};
use readme::{folder, ran, shown};
use std::fs;
use tool::pyramid::sides;

/// The sheet that `extract` makes of a frame, and its path.
fn extracted(name: &str, frame: &str, more: &[&str]) -> (String, Sheet) {
    let path = place(name);
    let path = path.to_str().unwrap();
    run(&[&["extract", frame, "-q", "-o", path], more].concat(), 0);
    (path.into(), read_sheet(&fs::read(path).unwrap()).unwrap())
}

/// A file of its own with a sheet.
fn written(name: &str, sheet: &Sheet) -> String {
    file(name, &write_sheet(sheet).unwrap())
}

/// What is said of a sheet of the coast that differs, without the path.
fn told(sheet: &str, more: &[&str]) -> String {
    let words = [&["check", sheet, "--against", COAST], more].concat();
    let (said, complained) = run(&words, 1);
    assert_eq!(
        complained,
        "bargeclover: the sheet is not as the rules give it\n"
    );
    let line = said.strip_prefix(&format!("{sheet}: ")).unwrap();
    line.strip_suffix('\n').unwrap().into()
}

#[test]
fn what_extract_makes_is_accepted() {
    let small = file("check small.pgm", &coast::frame(80, 60, 3).to_pgm());
    // of a frame with a side below 16 cells there is no octave
    let none = file(
        "check none.pgm",
        &[b"P5 15 40 255 ", &[9; 600][..]].concat(),
    );
    for (frame, width, height) in [(COAST, 320, 240), (&small, 80, 60), (&none, 15, 40)] {
        for (more, layers, double) in [
            (&[][..], "3 layers", false),
            (&["--double"], "3 layers", true),
            (&["--layers", "1", "--contrast", "0.02"], "1 layer", false),
            (&["--edge", "5", "--sigma", "1.2"], "3 layers", false),
        ] {
            for edition in ["1", "2"] {
                let made = [more, &["--edition", edition]].concat();
                let (path, sheet) = extracted("check good.sheet", frame, &made);
                let words = [&["check", &path, "--against", frame], more].concat();
                let (said, complained) = run(&words, 0);
                let octaves = match sides(width, height, double).len() {
                    1 => "1 octave".into(),
                    n => format!("{n} octaves"),
                };
                let times = if double { 2 } else { 1 };
                let (width, height) = (times * width, times * height);
                let records = match sheet.records.len() {
                    1 => "1 record".into(),
                    n => format!("{n} records"),
                };
                assert_eq!(
                    said,
                    format!(
                        "{path}: as the rules give it: edition {edition}, {width} x {height} cells, {layers}, {records} in {octaves}\n"
                    )
                );
                assert_eq!(complained, "");
            }
        }
    }
}

/// A record of the coast's second octave, and its number.
fn picked(sheet: &Sheet) -> (usize, Record) {
    let number = sheet.records.partition_point(|r| r.octave == 0) + 3;
    assert_eq!(sheet.records[number].octave, 1);
    (number, sheet.records[number])
}

#[test]
fn a_field_that_differs_is_told() {
    let next = |v: f32| v.next_up();
    let (_, ours) = extracted("check field.sheet", COAST, &[]);
    let (number, was) = picked(&ours);
    let at = |r: &Record| format!(" (octave 1, x {:.2}, y {:.2})", r.x, r.y);
    let bent = |bend: &dyn Fn(&mut Record)| {
        let mut sheet = ours.clone();
        bend(&mut sheet.records[number]);
        let is = sheet.records[number];
        let path = written("check bent.sheet", &sheet);
        let line = told(&path, &[]);
        let place = at(&is);
        let words = line
            .strip_suffix(&place)
            .unwrap_or_else(|| panic!("{line}"));
        let before = format!("record {number}: ");
        words.strip_prefix(&before).unwrap().to_string()
    };
    let says = |name: &str, is: &dyn ToString, rules: &dyn ToString| {
        let (is, rules) = (is.to_string(), rules.to_string());
        assert_ne!(is, rules);
        format!("{name} is {is}, the rules give {rules}")
    };
    assert_eq!(bent(&|r| r.row += 1), says("row", &(was.row + 1), &was.row));
    assert_eq!(
        bent(&|r| r.column -= 1),
        says("column", &(was.column - 1), &was.column)
    );
    let layer = was.layer % 3 + 1;
    assert_eq!(
        bent(&|r| r.layer = layer),
        says("layer", &layer, &was.layer)
    );
    assert_eq!(
        bent(&|r| r.code ^= 1),
        says("code", &(was.code ^ 1), &was.code)
    );
    assert_eq!(
        bent(&|r| (r.blank, r.values) = (Blank::Yes, [0; 128])),
        "blank is 1, the rules give 0"
    );
    // the least that floats can differ by is seen
    assert_eq!(bent(&|r| r.x = next(r.x)), says("x", &next(was.x), &was.x));
    assert_eq!(bent(&|r| r.y = next(r.y)), says("y", &next(was.y), &was.y));
    assert_eq!(
        bent(&|r| r.size = next(r.size)),
        says("size", &next(was.size), &was.size)
    );
    assert_eq!(
        bent(&|r| r.response = next(r.response)),
        says("response", &next(was.response), &was.response)
    );
    assert_eq!(
        bent(&|r| r.angle = 41.25),
        says("angle", &"41.25", &was.angle)
    );
    for value in [0, 17, 127] {
        assert_eq!(
            bent(&|r| r.values[value] ^= 1),
            says(
                &format!("value {value}"),
                &(was.values[value] ^ 1),
                &was.values[value]
            )
        );
    }
    // the first of two
    assert_eq!(
        bent(&|r| (r.values[5], r.y) = (r.values[5] ^ 1, next(r.y))),
        says("y", &next(was.y), &was.y)
    );
}

#[test]
fn records_that_are_dropped_doubled_swapped_and_added() {
    let (_, ours) = extracted("check records.sheet", COAST, &[]);
    let all = &ours.records;
    let (number, _) = picked(&ours);
    let many = all.len();
    let bent = |bend: &dyn Fn(&mut Vec<Record>)| {
        let mut sheet = ours.clone();
        bend(&mut sheet.records);
        told(&written("check other.sheet", &sheet), &[])
    };
    let place = |r: &Record| format!("x {:.2}, y {:.2})", r.x, r.y);

    // each is found where it stands in what the rules give
    let elsewhere = |line: String, at: usize, is: usize| {
        assert!(line.starts_with(&format!("record {at}: ")), "{line}");
        let end = format!(
            "; by the rules it is record {is} (octave 1, {}",
            place(&all[is])
        );
        assert!(line.ends_with(&end), "{line}");
    };
    let dropped = bent(&|r| {
        r.remove(number);
    });
    elsewhere(dropped, number, number + 1);
    let doubled = bent(&|r| r.insert(number, r[number]));
    elsewhere(doubled, number + 1, number);
    elsewhere(bent(&|r| r.swap(number, number + 2)), number, number + 2);

    // the last ones of an octave, and of all
    let last = number - 4;
    assert_eq!((all[last].octave, all[last + 1].octave), (0, 1));
    assert_eq!(
        bent(&|r| {
            r.drain(last - 1..=last);
        }),
        format!(
            "records are missing from {} on: the rules give 2 more of octave 0 (first {}",
            last - 1,
            place(&all[last - 1])
        )
    );
    assert_eq!(
        bent(&|r| r.truncate(many - 1)),
        format!(
            "records are missing from {} on: the rules give 1 more of octave 3 (first {}",
            many - 1,
            place(&all[many - 1])
        )
    );
    assert_eq!(
        bent(&|r| r.clear()),
        format!(
            "records are missing from 0 on: the rules give {} more of octave 0 (first {}",
            last + 1,
            place(&all[0])
        )
    );
    assert_eq!(
        bent(&|r| r.insert(last + 1, r[4])),
        format!(
            "records are left over from {} on: the rules give no more of octave 0 (first {}",
            last + 1,
            place(&all[4])
        )
    );
    assert_eq!(
        bent(&|r| r.push(r[many - 1])),
        format!(
            "records are left over from {many} on: the rules give no more of octave 3 (first {}",
            place(&all[many - 1])
        )
    );

    // of other octaves
    assert_eq!(
        bent(&|r| r.push(r[4])),
        format!(
            "record {many}: octave is 0, behind a record of octave 3 ({}",
            place(&all[4])
        )
    );
    assert_eq!(
        bent(&|r| {
            r.push(r[many - 1]);
            r[many].octave = 4;
        }),
        format!(
            "records are left over from {many} on: the frame has no octave 4 (first {}",
            place(&all[many - 1])
        )
    );
}

#[test]
fn a_header_that_differs_is_told_first() {
    let (_, ours) = extracted("check header.sheet", COAST, &[]);
    let bent = |bend: &dyn Fn(&mut Sheet), more: &[&str]| {
        let mut sheet = ours.clone();
        sheet.records[0].code ^= 1;
        sheet.records.swap(1, 160);
        bend(&mut sheet);
        told(&written("check head.sheet", &sheet), more)
    };
    assert_eq!(
        bent(&|s| s.width = 640, &[]),
        "width is 640, the frame has 320"
    );
    assert_eq!(
        bent(&|s| (s.height, s.layers) = (241, 4), &[]),
        "height is 241, the frame has 240"
    );
    assert_eq!(bent(&|s| s.layers = 4, &[]), "layers are 4, --layers is 3");
    assert_eq!(
        bent(&|_| {}, &["--layers", "5"]),
        "layers are 3, --layers is 5"
    );
    // a frame that is the sheet's when it is doubled, or when it is not
    assert_eq!(
        bent(&|s| (s.width, s.height) = (640, 480), &[]),
        "width is 640, the frame has 320 (640 with --double)"
    );
    assert_eq!(
        bent(&|_| {}, &["--double"]),
        "width is 320, the doubled frame has 640 (320 without --double)"
    );
}

#[test]
fn other_frames_settings_and_sheets_differ() {
    let other = file("check other.pgm", &coast::frame(320, 240, 8).to_pgm());
    let (path, _) = extracted("check theirs.sheet", &other, &[]);
    run(&["check", &path, "--against", &other], 0);
    assert!(told(&path, &[]).starts_with("record 0: "));
    let (path, _) = extracted("check plain.sheet", COAST, &[]);
    for more in [
        &["--contrast", "0.02"][..],
        &["--edge", "5"],
        &["--sigma", "1.6000001"],
    ] {
        assert!(told(&path, more).starts_with("record "));
    }
    let (path, _) = extracted("check quota.sheet", COAST, &["--quota", "40"]);
    assert!(told(&path, &[]).contains("; by the rules it is record "));
    let csv = file("check.csv", b"60,60,8\n");
    let (path, _) = extracted("check points.sheet", COAST, &["--points", &csv]);
    assert!(told(&path, &[]).contains("behind a record of octave 3"));
    // a quota that drops nothing makes no other sheet
    let (path, _) = extracted("check roomy.sheet", COAST, &["--quota", "99999"]);
    run(&["check", &path, "--against", COAST], 0);
}

#[test]
fn several_sheets_have_a_line_each() {
    let (good, ours) = extracted("check first.sheet", COAST, &[]);
    let mut sheet = ours;
    sheet.records[7].code ^= 1;
    let bent = written("check second.sheet", &sheet);
    let mut bytes = fs::read(&good).unwrap();
    bytes.pop();
    let broken = file("check third.sheet", &bytes);
    let (said, complained) = run(&["check", &bent, &broken, &good, "--against", COAST], 1);
    let said: Vec<&str> = said.lines().collect();
    assert_eq!(said.len(), 3);
    assert!(said[0].starts_with(&format!("{bent}: record 7: code is ")));
    assert!(said[2].starts_with(&format!("{good}: as the rules give it: edition 2, ")));
    assert_eq!(
        complained,
        "bargeclover: 2 of 3 sheets are not as the rules give them\n"
    );
    // what is not sound is told as without a frame
    let o = bargeclover(&["check", &broken]);
    assert_eq!(text(&o.stdout).trim_end(), said[1]);
    assert!(said[1].contains("number 8") && said[1].contains("cut short"));
    let (alone, _) = run(&["check", &broken, "--against", COAST], 1);
    assert_eq!(alone.trim_end(), said[1]);
    run(&["check", &good, &good, "--against", COAST, "-q"], 0);
}

#[test]
fn what_else_is_wrong() {
    let (sheet, _) = extracted("check usage.sheet", COAST, &[]);
    for (words, status, part) in [
        (&["--double"][..], 2, "no --against is given"),
        (&["--layers", "3"], 2, "no --against is given"),
        (&["--against"], 2, "wants a FRAME.pgm"),
        (
            &["--against", COAST, "--quota", "5"],
            2,
            "--quota is no option",
        ),
        (&["--against", "no/such.pgm"], 3, "can't be read"),
        (&["--against", COAST, "no/such.sheet"], 3, "can't be read"),
        (&["--against", &sheet], 1, "not a PGM picture"),
        (
            &["--against", COAST, "--contrast", "1.5"],
            1,
            "give --contrast",
        ),
        (&["--against", COAST, "--layers", "16"], 1, "give --layers"),
    ] {
        let (said, complained) = run(&[&["check", sheet.as_str()], words].concat(), status);
        assert_eq!(said, "");
        assert!(complained.contains(part), "{complained}");
    }
}

#[test]
fn a_difference_is_drawn() {
    let (good, ours) = extracted("check drawn.sheet", COAST, &[]);
    let mut sheet = ours.clone();
    sheet.records[7].angle = 41.25;
    let bent = written("check marked.sheet", &sheet);
    sheet = ours;
    sheet.records.pop();
    let short = written("check short.sheet", &sheet);
    let out = place("check.svg");
    let svg = out.to_str().unwrap();
    let shown = |sheet: &str, more: &[&str], status: i32| {
        let _ = fs::remove_file(&out);
        let drawn = [&["draw", COAST, sheet, "--check", "-o", svg], more].concat();
        let (said, complained) = run(&drawn, status);
        let told = run(
            &[&["check", sheet, "--against", COAST], more].concat(),
            status,
        );
        assert_eq!((said, complained), told);
        fs::read_to_string(&out).unwrap()
    };
    const RED: &str = "#ff1e1e";
    let (csv, _) = run(&["show", &good, "--csv"], 0);
    let many = lines(&csv).len();
    let picture = shown(&good, &[], 0);
    assert!(picture.contains(">as the rules give it</text>") && !picture.contains(RED));
    let picture = shown(&bent, &[], 1);
    let words = "record 7: angle is 41.25, the rules give ";
    assert_eq!(picture.matches(&format!("<title>{words}")).count(), 1);
    assert_eq!(picture.matches(&format!(">{words}")).count(), 2);
    // the mark, the legend's sign and its words
    assert_eq!(picture.matches(RED).count(), 3);
    assert_eq!(picture.matches("<title>").count(), many + 1);
    let picture = shown(&short, &[], 1);
    assert!(
        picture
            .contains(">records are missing from 170 on: the rules give 1 more of octave 3</text>")
    );
    assert_eq!(picture.matches("<title>").count(), many);
    assert_eq!(picture.matches("stroke-dasharray").count(), 2);
    // a header has no place in the picture
    let picture = shown(&good, &["--layers", "4"], 1);
    assert!(picture.contains(">layers are 3, --layers is 4</text>") && !picture.contains(RED));
    let picture = shown(&good, &["--double"], 1);
    assert!(picture.contains(">width is 320, the doubled frame has 640</text>"));

    // as PNG each is another picture, and the same as without a check but for the mark and the legend
    let out = place("check.png");
    let png = out.to_str().unwrap();
    let mut pictures = Vec::new();
    for (sheet, status) in [(&good, 0), (&bent, 1), (&short, 1)] {
        let (said, _) = run(&["draw", COAST, sheet, "--check", "-q", "-o", png], status);
        assert_eq!(said, "");
        pictures.push(fs::read(&out).unwrap());
        run(&["draw", COAST, sheet, "-o", png], 0);
        pictures.push(fs::read(&out).unwrap());
    }
    assert!(pictures.iter().all(|p| p.starts_with(b"\x89PNG\r\n\x1a\n")));
    pictures.sort();
    pictures.dedup();
    assert_eq!(pictures.len(), 6);

    for (words, part) in [
        (
            &["draw", COAST, "--check", "-o", png][..],
            "--check is for a sheet",
        ),
        (
            &["draw", COAST, &good, "--check", "--quota", "9", "-o", png],
            "--quota is for a search",
        ),
    ] {
        assert!(run(words, 2).1.contains(part));
    }
}

#[test]
fn the_readme_shows_what_is_printed() {
    let folder = folder("elsewhere", &["coast.pgm"]);
    let commands = shown("Sheets from elsewhere");
    assert_eq!(commands.len(), 3);
    for (words, text) in commands {
        let words: Vec<&str> = words.split_whitespace().collect();
        let (said, complained, status) = ran(&folder, &words);
        assert_eq!(said, text, "{words:?}");
        let (differ, code) = match words[0] {
            "check" => (
                "bargeclover: 1 of 2 sheets are not as the rules give them\n",
                1,
            ),
            _ => ("", 0),
        };
        assert_eq!((complained.as_str(), status), (differ, Some(code)));
    }
}
