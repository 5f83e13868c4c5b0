//! Points set by hand: the program makes records of them, or says which line is wrong.

mod program;

use program::{COAST, file, lines, place, run};
use std::fs;
use std::path::Path;

#[test]
fn points_are_given() {
    let [sheet, picture] = ["points.sheet", "points.svg"].map(place);
    let [sheet, picture] = [&sheet, &picture].map(|p| p.to_str().unwrap());
    // on land with and without a direction, on the calm sea, and in a corner
    let text =
        "x, y, size, angle\r\n60, 60, 8, 45\r\n60, 60, 8\r\n\r\n300, 60, 6\r\n0, 0, 0.25\r\n";
    let csv = file("points.csv", text.as_bytes());
    let (found, _) = run(&["find", COAST, "--csv"], 0);
    let found = lines(&found);
    let (said, _) = run(&["extract", COAST, "--points", &csv, "-o", sheet], 0);
    assert!(
        said.contains(" keypoints and 4 given points, of 320 x 240 cells\n"),
        "{said}"
    );
    assert!(
        said.ends_with("\nof them 1 level (read, all zero), 1 blank (no cell read)\n"),
        "{said}"
    );
    let (shown, _) = run(&["show", sheet, "--csv"], 0);
    let shown = lines(&shown);
    let (first, last) = shown.split_at(found.len());
    assert!(first.iter().zip(&found).all(|(a, b)| a.starts_with(b)));
    assert!(last[0].starts_with("60,60,8,0,45,") && last[0].ends_with(",values"));
    let on_land = last.len() - 2;
    for l in &last[1..on_land] {
        assert!(l.starts_with("60,60,8,0,") && l.ends_with(",values"));
    }
    assert!(on_land > 1);
    assert!(last[on_land].starts_with("300,60,6,0,0,0,") && last[on_land].ends_with(",level"));
    let corner = last[on_land + 1];
    assert!(corner.starts_with("0,0,0.25,0,") && corner.ends_with(",blank"));
    run(&["draw", COAST, sheet, "-o", picture], 0);
    let svg = fs::read_to_string(picture).unwrap();
    assert_eq!(svg.matches(", level</title>").count(), 1);
    assert_eq!(svg.matches(", blank</title>").count(), 1);
    assert!(svg.contains(">level: 1, read, all zero<") && svg.contains(">blank: 1, no cell read<"));

    // they alone, in the other edition, and no quota drops them
    let only = [
        "extract",
        COAST,
        "--points",
        &csv,
        "--only-points",
        "-o",
        sheet,
    ];
    let (said, _) = run(&only, 0);
    assert!(
        said.contains(" records, the directions of 4 given points, of "),
        "{said}"
    );
    let (alone, _) = run(&["show", sheet, "--csv"], 0);
    assert_eq!(lines(&alone), last);
    let (said, _) = run(&[&only[..], &["--edition", "1"]].concat(), 0);
    assert!(
        said.ends_with(" 1 blank (no cell read), which edition 1 leaves unknown\n"),
        "{said}"
    );
    let (alone, _) = run(&["show", sheet, "--csv"], 0);
    assert_eq!(alone.matches(",unknown\n").count(), 2);
    let words = [
        "extract", COAST, "--points", &csv, "--quota", "9", "-o", sheet,
    ];
    assert!(run(&words, 0).0.contains(" 9 keypoints and 4 given points"));
    let (thinned, _) = run(&["show", sheet, "--csv"], 0);
    assert!(lines(&thinned).ends_with(last));

    // on the doubled frame each is at the same place
    run(&[&only[..], &["--double"]].concat(), 0);
    let (doubled, _) = run(&["show", sheet, "--csv"], 0);
    assert!(lines(&doubled)[0].starts_with("120.5,120.5,16,0,45,"));
    run(&["draw", COAST, sheet, "-o", picture], 0);
}

#[test]
fn points_are_refused() {
    let good = file("good.csv", b"60,60,8\n");
    let told = |text: &str, part: &str| {
        let csv = file("bad.csv", text.as_bytes());
        let words = ["extract", COAST, "--points", &csv, "-o", "x.sheet"];
        let (said, complained) = run(&words, 1);
        assert_eq!(said, "");
        assert!(
            complained.contains("bad.csv: line ") && complained.contains(part),
            "{complained}"
        );
        assert!(!Path::new("x.sheet").exists());
    };
    told(
        "x,y,size\n1,2,3\n1,2\n",
        "line 3: x, y, size and perhaps an angle are wanted",
    );
    told("1,2,many\n", "line 1: size 'many' is no finite number");
    told("1,2,3\r\n1,2,0\r\n", "line 2: size 0 is not above 0");
    told("1,2,3,360\n", "line 1: angle 360 is not 0 to below 360");
    told(
        "\n320,2,3\n",
        "line 2: x 320 is outside of the frame, where it is 0 to 319",
    );
    told(
        "1,2,3\n1,2,0.1\n",
        "line 2: size 0.1 is not 0.25 to 1024, which the octaves",
    );
    for more in [
        &["--contrast", "0.1"][..],
        &["--edge", "9"],
        &["--quota", "9"],
    ] {
        let words = [
            "extract",
            COAST,
            "--points",
            &good,
            "--only-points",
            "-o",
            "x.sheet",
        ];
        let (_, complained) = run(&[&words[..], more].concat(), 2);
        assert!(complained.contains("is for a search, and --only-points leaves it out"));
    }
    let folder = place("");
    let to = folder.to_str().unwrap();
    let small = file("one frame.pgm", &coast::frame(80, 60, 3).to_pgm());
    let (_, complained) = run(&["extract", COAST, &small, "--points", &good, "-o", to], 2);
    assert!(complained.contains("--points are those of one frame"));
    let (_, complained) = run(&["extract", COAST, "--points", &good, "-o", &good], 2);
    assert!(complained.contains("the place of the points"));
}
