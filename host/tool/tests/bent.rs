//! Thousands of bent frames, sheets and files of points: each is taken or refused, and nothing panics.

use cases::{Rng, sheet};
use std::fs;
use std::path::Path;
use std::process::{Command, Stdio};
use tool::cover::Cover;
use tool::extract::{Order, extract};
use tool::find::{self, Wanted};
use tool::patch::Patch;
use tool::progress::Progress;
use tool::table::Mark;
use tool::{draw, pgm, points, svg};

/// A small frame's file of one of the four kinds.
fn frame(rng: &mut Rng) -> Vec<u8> {
    let (w, h) = (rng.from_to(1, 40), rng.from_to(1, 40));
    let top = rng.pick(&[1, 9, 255, 256, 65535]);
    let plain = rng.one_in(3);
    let between = rng.pick(&[" ", "\n", "\t", "\n# made up\n"]);
    let kind = if plain { "P2" } else { "P5" };
    let mut bytes = format!("{kind}{between}{w} {h}{between}{top}\n").into_bytes();
    for _ in 0..w * h {
        let v = rng.from_to(0, top);
        if plain {
            bytes.extend(format!("{v} ").into_bytes());
        } else if top > 255 {
            bytes.extend((v as u16).to_be_bytes());
        } else {
            bytes.push(v as u8);
        }
    }
    bytes
}

fn bend(rng: &mut Rng, bytes: &mut Vec<u8>) {
    for _ in 0..rng.from_to(1, 3) {
        // the head more often than its share
        let near = rng.pick(&[20, bytes.len()]).min(bytes.len());
        let at = rng.below(near + 1);
        match rng.below(6) {
            0 => bytes.truncate(at),
            1 => bytes.insert(at, rng.word() as u8),
            2 => bytes.insert(at, rng.pick(b"0123456789 #-P\n")),
            3 => {
                let more: Vec<u8> = (0..rng.below(9)).map(|_| rng.pick(b"0189")).collect();
                bytes.splice(at..at, more);
            }
            _ if at < bytes.len() => bytes[at] ^= 1 << rng.below(8),
            _ => {}
        }
    }
}

/// Finds and draws what a frame has.
fn use_up(f: &pgm::Frame, wanted: &Wanted) {
    let mut marks = Vec::new();
    let found = find::each(f, wanted, &mut Progress::none(), |_, k, o| {
        marks.push(Mark::of_oriented(k, o));
        Ok(())
    });
    if extract(f, wanted, &Order::default(), &mut Progress::none()).is_ok() {
        assert!(found.is_ok());
    }
    if found.is_ok() && f.width.max(f.height) < 300 {
        draw::to_png(f, &marks, wanted.double, 2);
        svg::to_svg(f, &marks, wanted.double, 2);
        if let Some(cover) = &wanted.cover {
            let (thinned, _) = find::thinned(f, wanted, cover, &mut Progress::none()).unwrap();
            assert!(thinned.kept.len() <= cover.quota);
            draw::thinned_to_png(f, &thinned, wanted.double, 2);
            svg::thinned_to_svg(f, &thinned, wanted.double, 2);
        }
    }
}

#[test]
fn bent_frames() {
    let mut rng = Rng::new(31);
    let (mut taken, mut refused) = (0, 0);
    for k in 0..4000 {
        let mut bytes = frame(&mut rng);
        if k % 8 != 0 {
            bend(&mut rng, &mut bytes);
        }
        match pgm::read(&bytes) {
            Ok(f) => {
                assert_eq!(f.samples.len(), f.width * f.height);
                assert!(f.samples.iter().all(|v| (0.0..=255.0).contains(v)));
                if k % 8 == 0 {
                    let double = rng.one_in(2);
                    let cover = rng.one_in(2).then(|| Cover {
                        quota: rng.from_to(1, 9),
                        depth: rng.below(13) as u32,
                    });
                    use_up(
                        &f,
                        &Wanted {
                            double,
                            cover,
                            ..Wanted::default()
                        },
                    );
                }
                taken += 1;
            }
            Err(fault) => {
                assert!(!fault.to_string().is_empty());
                refused += 1;
            }
        }
    }
    assert!(taken > 500 && refused > 1000, "{taken} {refused}");
}

/// Sheets whose fields are anything that the rules allow, drawn on frames that fit and that do not.
#[test]
fn odd_sheets_are_drawn() {
    let mut rng = Rng::new(32);
    for _ in 0..300 {
        let case = sheet::accepted(&mut rng, 6);
        let bytes = sheet::written(&case);
        let sheet = bargeclover::read_sheet(&bytes).unwrap();
        let marks: Vec<Mark> = sheet.records.iter().map(Mark::of_record).collect();
        for m in &marks {
            let unknown = m.patch == Some(Patch::Unknown);
            assert!(!unknown || sheet.edition == 1);
        }
        let (width, height) = (rng.from_to(1, 60), rng.from_to(1, 60));
        let f = pgm::Frame {
            width,
            height,
            samples: vec![99.0; width * height],
        };
        let zoom = rng.from_to(1, 4);
        draw::to_png(&f, &marks, rng.one_in(2), zoom);
        svg::to_svg(&f, &marks, rng.one_in(2), zoom);
    }
}

/// Lines of points, most of them sound.
fn point_lines(rng: &mut Rng) -> Vec<u8> {
    let mut text = String::from(rng.pick(&["", "x,y,size\n", "x, y, size, angle\r\n"]));
    for _ in 0..rng.below(5) {
        let number = |rng: &mut Rng, most: f64| match rng.below(8) {
            0 => rng
                .pick(&["0", "-0", "39", "1e9", "0.25", "nan", "", "-1"])
                .into(),
            1 => format!(" {:.0}", rng.unit() * most),
            _ => format!("{:.2}", rng.unit() * most),
        };
        let fields: Vec<String> = [20.0, 20.0, 20.0, 400.0][..rng.from_to(3, 4)]
            .iter()
            .map(|most| number(rng, *most))
            .collect();
        text += &fields.join(",");
        text += rng.pick(&["\n", "\r\n", "\n\n"]);
    }
    text.into_bytes()
}

/// Each point that is taken has a record at least, and the sheet is written.
#[test]
fn bent_points() {
    let mut rng = Rng::new(34);
    let (mut taken, mut refused, mut placed) = (0, 0, 0);
    for k in 0..4000 {
        let mut bytes = point_lines(&mut rng);
        if k % 2 != 0 {
            bend(&mut rng, &mut bytes);
        }
        let points = match points::read("bent.csv", &bytes) {
            Ok(p) => p,
            Err(told) => {
                assert!(told.to_string().starts_with("bent.csv: line "), "{told}");
                refused += 1;
                continue;
            }
        };
        taken += 1;
        let (width, height) = (rng.from_to(14, 40), rng.from_to(14, 40));
        let f = pgm::Frame {
            width,
            height,
            samples: (0..width * height).map(|_| rng.below(256) as f32).collect(),
        };
        let wanted = Wanted {
            double: rng.one_in(2),
            unsearched: true,
            ..Wanted::default()
        };
        let many = points.list.len();
        let order = Order {
            edition: rng.from_to(1, 2) as u32,
            points,
        };
        match extract(&f, &wanted, &order, &mut Progress::none()) {
            Ok(made) => {
                assert!(made.sheet.records.len() >= many);
                bargeclover::write_sheet(&made.sheet).unwrap();
                placed += many;
            }
            Err(told) => assert!(told.to_string().starts_with("bent.csv: line "), "{told}"),
        }
    }
    assert!(
        taken > 1000 && refused > 1000 && placed > 500,
        "{taken} {refused} {placed}"
    );
}

/// The program itself: it ends by itself, with one of its own statuses.
#[test]
fn bent_files_given_to_the_program() {
    let folder = Path::new(env!("CARGO_TARGET_TMPDIR"));
    let (pgm, bent, out) = (
        folder.join("bent.pgm"),
        folder.join("bent.sheet"),
        folder.join("bent.png"),
    );
    let run = |words: &[&Path], status: &[i32]| {
        let mut program = Command::new(env!("CARGO_BIN_EXE_bargeclover"));
        let o = program.args(words).stdin(Stdio::null()).output().unwrap();
        let said = String::from_utf8_lossy(&o.stderr);
        assert!(
            o.status.code().is_some_and(|s| status.contains(&s)),
            "{words:?}: {:?}: {said}",
            o.status
        );
    };
    let mut rng = Rng::new(33);
    for k in 0..250 {
        let mut bytes = frame(&mut rng);
        bend(&mut rng, &mut bytes);
        fs::write(&pgm, &bytes).unwrap();
        let mut bytes = sheet::written(&sheet::accepted(&mut rng, 3));
        for _ in 0..rng.below(3) {
            sheet::damage_sheet(&mut rng, &mut bytes);
        }
        fs::write(&bent, &bytes).unwrap();
        run(&[Path::new("find"), &pgm], &[0, 1]);
        run(&[Path::new("check"), &bent], &[0, 1]);
        run(&[Path::new("show"), &bent], &[0, 1]);
        let against = [Path::new("check"), &bent, Path::new("--against"), &pgm];
        run(&against, &[0, 1]);
        if k % 5 == 0 {
            let draw = [Path::new("draw"), &pgm, &bent, Path::new("-o"), &out];
            run(&draw, &[0, 1]);
            // each file in the other's place
            run(&[Path::new("show"), &pgm], &[1]);
            run(&[Path::new("find"), &bent], &[1]);
        }
    }
}
