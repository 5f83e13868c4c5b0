//! The checker of sheets, against its second rendering, with records that the published Rust makes.

mod lines;

pub use lines::due;

use crate::report::Report;
use bargeclover::entries;
use cases::audit::change::{Change, changed, whole};
use cases::audit::fault::{Line, put};
use cases::audit::octave;
use cases::audit::reads::{Reader, Reads, spoil, spoil_unread};
use cases::audit::{self, Case, Made, Outcome, Stages};
use cases::{Rng, sheet};

const RUST: Stages = Stages {
    find: oracle::find_extrema,
    assign: oracle::assign_orientations,
    inputs: oracle::descriptor_inputs,
    describe: oracle::compute_descriptor,
};

/// Cases of no more samples are told in full.
const SHOWN: usize = 3000;

fn told(c: &Case) -> String {
    let head = format!(
        "{} x {} x {}, octave {}, {:?}, octave 0 of {:?}",
        c.width, c.height, c.planes, c.octave, c.settings, c.base
    );
    if c.dog.len() + c.gauss.len() > SHOWN {
        let (dog, gauss) = (c.dog.len(), c.gauss.len());
        return format!("{head}, {dog} and {gauss} samples, sheet {:x?}", c.sheet);
    }
    let words = |list: &[f32]| -> Vec<String> {
        let words = list.iter().map(|x| format!("{:x}", x.to_bits()));
        words.collect()
    };
    let (dog, gauss) = (words(&c.dog).join(" "), words(&c.gauss).join(" "));
    format!(
        "{head}, differences {dog}, Gaussian {gauss}, sheet {:x?}",
        c.sheet
    )
}

fn hold(r: &mut Report, c: &Case, outcome: Outcome) {
    let s = (&c.stack(), &c.gauss, c.octave, &c.settings);
    let answer = entries::check_sheet(s.0, s.1, s.2, s.3, c.base, &c.sheet);
    r.same("check_sheet", &answer, &outcome.told(), || told(c));
    r.tried(lines::answered(outcome.told().0));
    r.tried(lines::verdict(outcome));
    match outcome {
        Outcome::Refused(reason) => r.tried(lines::refused(reason)),
        Outcome::Header(field) => r.tried(lines::header_field(field)),
        Outcome::Record(_, field) => r.tried(lines::record_field(field)),
        Outcome::Accepted => {
            let some = c.sheet.len() > sheet::HEADER;
            r.tried(lines::accepted(u32::from(c.sheet[0] >> 4), some));
        }
        _ => {}
    }
}

/// The sheet of all records in each edition, and some that are changed.
fn sheets(rng: &mut Rng, r: &mut Report, c: &mut Case, made: &Made) {
    for edition in [1, 2] {
        c.sheet = whole(c, made, edition);
        hold(r, c, audit::of_sheet(c, made));
    }
    for _ in 0..CHANGES {
        let (edition, change) = (rng.from_to(1, 2) as u32, rng.pick(&Change::ALL));
        if let Some(bytes) = changed(rng, c, made, edition, change) {
            c.sheet = bytes;
            hold(r, c, audit::of_sheet(c, made));
            r.tried(lines::change_of(change));
        }
    }
}

/// A sound sheet for a case that is to have faults: whole, or with a difference, which is no reason to overlook a fault behind it.
fn sound(rng: &mut Rng, c: &Case, made: &Made) -> Vec<u8> {
    let (edition, change) = (rng.from_to(1, 2) as u32, rng.pick(&Change::ALL));
    match changed(rng, c, made, edition, change) {
        Some(bytes) if sheet::reading(&bytes).is_ok() => bytes,
        _ => whole(c, made, edition),
    }
}

/// A case with a fault of a line; none where it can't have one.
fn faulty(rng: &mut Rng, c: &Case, reads: &Reads, line: Line) -> Option<Case> {
    let mut c = c.clone();
    put(rng, &mut c, reads, line)?;
    Some(c)
}

/// Faults of two lines at once. The later one is put in first: what it is put in may be gone after the other.
fn both(rng: &mut Rng, r: &mut Report, c: &Case, reads: &Reads, lines: [Line; 2]) {
    let [one, other] = lines;
    let Some(later) = faulty(rng, c, reads, other) else {
        return;
    };
    let Some(two) = faulty(rng, &later, reads, one) else {
        return;
    };
    let [alone, first] = [&later, &two].map(|c| {
        let outcome = audit::outcome(c, &RUST);
        hold(r, c, outcome);
        outcome.told().0
    });
    if alone == other.number() && lines.iter().all(|line| line.holds(&two)) {
        r.same("the first of two faults", &first, &one.number(), || {
            format!("{lines:?}, {}", told(&two))
        });
        r.tried(lines::pair(lines));
    }
}

fn faults(rng: &mut Rng, r: &mut Report, c: &Case, made: &Made) {
    let reads = Reads::new(c, made);
    let line = rng.pick(&Line::ALL);
    if let Some(c) = faulty(rng, c, &reads, line) {
        hold(r, &c, audit::outcome(&c, &RUST));
        r.tried(lines::single(line));
    }
    let last = Line::ALL.len() - 1;
    let at = rng.below(last);
    both(rng, r, c, &reads, [at, at + 1].map(|k| Line::ALL[k]));
    let other = rng.from_to(at + 1, last);
    both(rng, r, c, &reads, [at, other].map(|k| Line::ALL[k]));
    gaussian(rng, r, c, made, &reads);
}

/// Bad samples in Gaussian cells that are read, and in some or all that are not.
fn gaussian(rng: &mut Rng, r: &mut Report, c: &Case, made: &Made, reads: &Reads) {
    let (what, by) = rng.pick(&[
        (lines::UNREAD, Reader::Nothing),
        (lines::ALL_UNREAD, Reader::Nothing),
        (lines::IN_WINDOW, Reader::Window),
        (lines::IN_PATCH, Reader::Patch),
    ]);
    let mut c = c.clone();
    if what == lines::ALL_UNREAD {
        spoil_unread(rng, &mut c, reads);
    } else if spoil(rng, &mut c, reads, by).is_none() {
        return;
    }
    // a cell of a window may lie in the patch of a keypoint before
    let outcome = audit::outcome(&c, &RUST);
    let expected = match by {
        Reader::Nothing => audit::of_sheet(&c, made).told(),
        _ => (6, 0, 0, 0),
    };
    r.same("cells that are read", &outcome.told(), &expected, || {
        told(&c)
    });
    if by != Reader::Nothing && audit::of_sheet(&c, made) != Outcome::Accepted {
        r.tried(lines::DIFFERS_TOO);
    }
    hold(r, &c, outcome);
    r.tried(what);
}

/// Sheets of an octave that are changed.
const CHANGES: usize = 4;

/// `many` small octaves, each with the sheet of its records in both editions, with some that are changed, and with faults.
pub fn octaves(rng: &mut Rng, many: u64, r: &mut Report) {
    for _ in 0..many {
        let (kind, mut c, made) = octave::any(rng, &RUST);
        sheets(rng, r, &mut c, &made);
        c.sheet = sound(rng, &c, &made);
        faults(rng, r, &c, &made);
        r.tried(lines::kind_of(kind));
        r.add("keypoints of checked octaves", made.keypoints.len() as u64);
        r.add("records of checked octaves", made.records.len() as u64);
        let zeros = made.records.iter().filter(|e| e.words[10..] == [0; 129]);
        r.add(lines::ZEROS, zeros.count() as u64);
        let settled = made.keypoints.iter().zip(&made.searched);
        let elsewhere = settled.filter(|(k, layer)| k[5] as usize != **layer);
        r.add(lines::ELSEWHERE, elsewhere.count() as u64);
        if c.width >= octave::WIDE && !made.records.is_empty() {
            r.tried(lines::WIDE);
        }
    }
}
