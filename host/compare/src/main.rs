//! compare [--seed N] [--stacks N] [--sheets N] [--lists N] [--audits N] [--operations N]: the library and the published Rust on the
//! same inputs.
//!
//! Every word, number, count and untouched word of each answer is compared: with the published Rust where the input is accepted,
//! with the refusal table rendered a second time where it is not, and single operations with the processor. Sheets, made records and
//! thinned lists, which the Rust has not, are compared with a second rendering; there are as many sheets and records as stacks where
//! --sheets says nothing else. The checker of sheets is compared with a second rendering too, on --audits octaves, whose records the Rust
//! makes. It prints what it tried and what differs, and ends with status 1 where anything does, or where a run of 10,000 stacks or more
//! did not meet every number of every entry, every fate of a candidate, every way of detection, and patches of all kinds, or one of
//! 10,000 sheets or more every reason, edition and blank word, or one of 10,000 lists or more every reason and every way of thinning, or
//! one of 1,000 octaves or more every verdict, reason, change and pair of faults of a checked sheet.

mod audit;
mod descriptor;
mod detection;
mod operations;
mod orientation;
mod record;
mod report;
mod sheet;
mod thinning;

use cases::Rng;
use cases::fate::Fate;
use report::Report;
use std::env;
use std::process::ExitCode;

/// Each entry, and the numbers of the table that it can answer.
const ENTRIES: [(&str, &[u32]); 4] = [
    ("find_extrema", &[0, 1, 2, 3, 4, 6, 7]),
    ("assign_orientations", &[0, 1, 3, 5, 6, 7]),
    ("descriptor_inputs", &[0, 4, 5, 7]),
    ("compute_descriptor", &[0, 1, 3, 5, 6, 7]),
];

/// What else a run of some length has to have met.
const MET: [&str; 6] = [
    "keypoint with 0 peaks",
    "keypoint with 1 peaks",
    "keypoint with 4 peaks",
    "descriptor with values",
    "descriptor of a flat patch",
    "descriptor of nothing",
];

/// Everything that a run of some length has to have met at least once: a comparison of tame inputs finds no difference either.
fn due_of_stacks() -> Vec<(String, u64)> {
    let answers = ENTRIES
        .iter()
        .flat_map(|(entry, numbers)| numbers.iter().map(move |n| format!("{entry} answered {n}")));
    let fates = Fate::ALL.iter().map(|f| format!("candidate: {f:?}"));
    let met = MET.iter().map(|m| m.to_string());
    let ways = detection::WAYS.iter().map(|w| w.to_string());
    let all = answers.chain(fates).chain(ways).chain(met);
    all.map(|what| (what, 1)).collect()
}

/// What the run met too seldom.
fn missing(w: &Wanted, r: &Report) -> Vec<String> {
    let mut due = Vec::new();
    if w.stacks >= LONG && oracle::FOUND {
        due.extend(due_of_stacks());
    }
    if w.sheets() >= LONG {
        due.extend(sheet::due(w.sheets()));
        due.extend(record::due(w.sheets()));
    }
    if w.lists >= LONG {
        due.extend(thinning::due(w.lists));
    }
    if w.audits >= LONG_AUDIT && oracle::FOUND {
        due.extend(audit::due(w.audits));
    }
    let seldom = due
        .into_iter()
        .filter(|(what, least)| r.count(what) < *least);
    seldom.map(|(what, _)| what).collect()
}

/// From so many stacks, sheets or lists on a run has to meet everything.
const LONG: u64 = 10_000;
/// Of octaves, each of which has a dozen sheets, so many.
const LONG_AUDIT: u64 = 1000;

struct Wanted {
    seed: u64,
    stacks: u64,
    sheets: Option<u64>,
    lists: u64,
    audits: u64,
    operations: u64,
}

impl Wanted {
    fn sheets(&self) -> u64 {
        self.sheets.unwrap_or(self.stacks)
    }
}

fn wanted() -> Result<Wanted, String> {
    let mut w = Wanted {
        seed: 1,
        stacks: 100_000,
        sheets: None,
        lists: 200_000,
        audits: 20_000,
        operations: 5_000_000,
    };
    let mut words = env::args().skip(1);
    while let Some(word) = words.next() {
        let number = words.next().and_then(|n| n.parse().ok());
        let number = number.ok_or(format!("{word} wants a number"))?;
        match word.as_str() {
            "--seed" => w.seed = number,
            "--stacks" => w.stacks = number,
            "--sheets" => w.sheets = Some(number),
            "--lists" => w.lists = number,
            "--audits" => w.audits = number,
            "--operations" => w.operations = number,
            _ => {
                return Err(format!(
                    "{word} is not known: --seed, --stacks, --sheets, --lists, --audits, --operations"
                ));
            }
        }
    }
    Ok(w)
}

fn main() -> ExitCode {
    let w = match wanted() {
        Ok(w) => w,
        Err(e) => {
            eprintln!("compare: {e}");
            return ExitCode::from(2);
        }
    };
    println!("seed {}", w.seed);
    let mut r = Report::default();
    let mut rng = Rng::new(w.seed);
    operations::operations(&mut rng, w.operations, &mut r);
    operations::routines(&mut rng, w.operations, &mut r);
    // random numbers of their own, so that the other parts have theirs whatever --sheets, --lists and --audits are
    sheet::sheets(&mut Rng::new(w.seed), w.sheets(), &mut r);
    record::records(&mut Rng::new(w.seed), w.sheets(), &mut r);
    thinning::lists(&mut Rng::new(w.seed), w.lists, &mut r);
    if oracle::FOUND {
        detection::thresholds(&mut rng, w.stacks, &mut r);
        detection::stacks(&mut rng, w.stacks, &mut r);
        orientation::keypoints(&mut rng, w.stacks, &mut r);
        descriptor::inputs(&mut rng, w.stacks, &mut r);
        descriptor::descriptors(&mut rng, w.stacks, &mut r);
        detection::dense_stacks(&mut rng, &mut r);
        audit::octaves(&mut Rng::new(w.seed), w.audits, &mut r);
    } else {
        println!(
            "SKIPPED: the published Rust was not found, so stacks, keypoints, descriptors and checked sheets were not compared"
        );
        if env::var("CI").is_ok_and(|v| v == "true") {
            r.differs("with CI=true the published Rust must be there");
        }
    }
    r.print();
    let missing = missing(&w, &r);
    if !missing.is_empty() {
        println!("met too seldom, so the inputs are too tame: {missing:?}");
        return ExitCode::FAILURE;
    }
    if r.differences() == 0 {
        ExitCode::SUCCESS
    } else {
        ExitCode::FAILURE
    }
}
