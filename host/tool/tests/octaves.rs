//! The sheets that the tool makes of the shipped frame, octave by octave, held to the planes by the library's checker: each is accepted,
//! and a thinned one is not.

use bargeclover::{Sheet, Verdict, check_sheet, write_sheet};
use std::fs;
use std::path::Path;
use tool::cover::Cover;
use tool::extract::{Order, extract};
use tool::find::{self, Wanted};
use tool::pgm::{self, Frame};
use tool::progress::Progress;
use tool::pyramid::Pyramid;

fn frame() -> Frame {
    let path = Path::new(env!("CARGO_MANIFEST_DIR")).join("../../frames/coast.pgm");
    pgm::read(&fs::read(path).unwrap()).unwrap()
}

/// The verdict of each octave, with the number of its records.
fn verdicts(f: &Frame, w: &Wanted, edition: u32) -> Vec<(usize, Verdict)> {
    let order = Order {
        edition,
        ..Order::default()
    };
    let sheet = extract(f, w, &order, &mut Progress::none()).unwrap().sheet;
    let s = &w.settings;
    let octaves = Pyramid::new(&f.samples, f.width, f.height, s, w.double);
    let each = octaves.map(|octave| {
        let records = sheet.records.iter().filter(|r| r.octave == octave.number);
        let part = Sheet {
            records: records.copied().collect(),
            ..sheet
        };
        let bytes = write_sheet(&part).unwrap();
        let (stack, base) = (octave.stack(), find::size(f, w.double));
        let told = check_sheet(&stack, &octave.gaussian, octave.number, s, base, &bytes);
        (part.records.len(), told.unwrap())
    });
    each.collect()
}

#[test]
fn each_octave_s_sheet_is_accepted() {
    let f = frame();
    for double in [false, true] {
        let w = Wanted {
            double,
            ..Wanted::default()
        };
        for edition in [1, 2] {
            let told = verdicts(&f, &w, edition);
            assert!(told.len() > 2 && told.iter().all(|t| t.0 > 0), "{told:?}");
            let accepted = |t: &(usize, Verdict)| t.1 == Verdict::Accepted;
            assert!(told.iter().all(accepted), "{told:?}");
        }
    }
}

#[test]
fn a_thinned_sheet_is_not() {
    let f = frame();
    let all = verdicts(&f, &Wanted::default(), 2);
    let w = Wanted {
        cover: Some(Cover {
            quota: 40,
            depth: 12,
        }),
        ..Wanted::default()
    };
    let thinned = verdicts(&f, &w, 2);
    assert!(thinned[0].0 < all[0].0);
    for (all, kept) in all.iter().zip(&thinned) {
        assert_eq!(all.0 == kept.0, kept.1 == Verdict::Accepted, "{kept:?}");
    }
}
