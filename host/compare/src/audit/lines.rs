//! What a run says of checked sheets, and what it has to have met.

use cases::audit::change::Change;
use cases::audit::fault::Line;
use cases::audit::octave::Kind;
use cases::audit::{Outcome, Reason};
use cases::sheet;

pub fn verdict(outcome: Outcome) -> &'static str {
    match outcome {
        Outcome::Refused(_) => "check_sheet refused",
        Outcome::Accepted => "check_sheet: accepted",
        Outcome::Header(_) => "check_sheet: the header differs",
        Outcome::Record(..) => "check_sheet: a record differs",
        Outcome::Missing(_) => "check_sheet: records missing",
        Outcome::LeftOver(_) => "check_sheet: records left over",
    }
}

pub fn answered(number: u32) -> String {
    format!("check_sheet answered {number}")
}

pub fn refused(reason: Reason) -> String {
    format!("check_sheet refused with {}: {reason:?}", reason.number())
}

pub fn header_field(field: u32) -> String {
    format!("check_sheet named field {field} of the header")
}

pub fn record_field(field: u32) -> String {
    format!("check_sheet named field {field:>3} of a record")
}

pub fn single(line: Line) -> String {
    format!("fault: {line:?}")
}

pub fn pair([one, other]: [Line; 2]) -> String {
    format!("two faults: {one:?} and {other:?}")
}

pub fn change_of(change: Change) -> String {
    format!("sheet: {change:?}")
}

pub fn kind_of(kind: Kind) -> String {
    format!("octave: {kind:?}")
}

pub const UNREAD: &str = "bad Gaussian cell that is not read";
pub const ALL_UNREAD: &str = "every Gaussian cell that is not read is bad";
pub const IN_WINDOW: &str = "bad Gaussian cell of a window";
pub const IN_PATCH: &str = "bad Gaussian cell of a patch alone";
pub const DIFFERS_TOO: &str = "bad Gaussian cell beside a difference of the sheet";

pub const ZEROS: &str = "records of checked octaves: read, and all zero";
pub const ELSEWHERE: &str =
    "keypoints of checked octaves: settled in another layer than the one searched";

pub const WIDE: &str = "octave with records and rows of more than 64 cells";

/// An accepted sheet of such an edition, without records or with some.
pub fn accepted(edition: u32, some: bool) -> String {
    let what = if some { "some records" } else { "no record" };
    format!("check_sheet: accepted, edition {edition}, {what}")
}

/// The lines of a refusal, two by two.
fn pairs() -> impl Iterator<Item = [Line; 2]> {
    let lines = Line::ALL.iter().enumerate();
    lines.flat_map(|(k, &one)| Line::ALL[k + 1..].iter().map(move |&other| [one, other]))
}

/// What a run of some length has to have met, and how often at least: each number, each verdict and each two faults of lines that are
/// neighbours in one octave of 30, each reason, change, kind and fault in one of 100, any two faults and each reason of a sheet in one of
/// 1,000, and each field of a record in one of 5,000.
pub fn due(many: u64) -> Vec<(String, u64)> {
    let mut all: Vec<(String, u64)> = Vec::new();
    let mut add = |what: String, least: u64| all.push((what, least));
    for number in [0, 1, 2, 3, 4, 5, 6, 8] {
        add(answered(number), many / 30);
    }
    let verdicts = [
        Outcome::Accepted,
        Outcome::Header(0),
        Outcome::Record(0, 0),
        Outcome::Missing(0),
        Outcome::LeftOver(0),
    ];
    for outcome in verdicts {
        add(verdict(outcome).to_string(), many / 30);
    }
    for (edition, some) in [(1, false), (1, true), (2, false), (2, true)] {
        add(accepted(edition, some), many / 30);
    }
    for reason in Reason::ALL {
        add(refused(reason), many / 100);
    }
    for reason in sheet::Reason::READER {
        add(refused(Reason::Sheet(reason)), many / 1000);
    }
    for line in Line::ALL {
        add(single(line), many / 100);
    }
    for lines in pairs() {
        let neighbours = lines[0] as usize + 1 == lines[1] as usize;
        add(pair(lines), many / if neighbours { 30 } else { 1000 });
    }
    for change in Change::ALL {
        add(change_of(change), many / 100);
    }
    for kind in Kind::ALL {
        add(kind_of(kind), many / 100);
    }
    let cells = [UNREAD, ALL_UNREAD, IN_WINDOW, IN_PATCH, DIFFERS_TOO];
    for what in cells.into_iter().chain([ZEROS, ELSEWHERE, WIDE]) {
        add(what.to_string(), many / 100);
    }
    for field in 2..=4 {
        add(header_field(field), many / 100);
    }
    for field in (1..=140).filter(|f| ![3, 7].contains(f)) {
        add(record_field(field), many / 5000);
    }
    all
}
