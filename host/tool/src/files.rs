//! Files in and out; `-` is standard input or output.

use crate::Trouble;
use crate::fault::fault;
use crate::pgm::{self, Frame};
use crate::points::{self, Points};
use bargeclover::{Refusal, Sheet, read_sheet};
use std::fs::{self, File};
use std::io::{self, Read, Write};
use std::path::Path;

/// More than any plain PGM of 8,192 by 8,192 samples of 16 bits needs.
const MOST_FRAME: u64 = 1 << 30;

/// One byte more than the longest sheet has.
const MOST_SHEET: u64 = 8 + 154 * 1_048_575 + 1;

/// A hundred bytes for each record of the largest sheet.
const MOST_POINTS: u64 = 100 * 1_048_575;

fn is_dash(path: &Path) -> bool {
    path.as_os_str() == "-"
}

/// The file's bytes, up to a number of them; no further than its first two where these are not wanted, so that a device or a film's
/// scan of another kind is not read whole.
fn read(path: &Path, most: u64, wanted: impl Fn(&[u8]) -> bool) -> Result<Vec<u8>, Trouble> {
    let taken = |file: &mut dyn Read| {
        let mut bytes = Vec::new();
        file.take(2).read_to_end(&mut bytes)?;
        if wanted(&bytes) {
            file.take(most - 2).read_to_end(&mut bytes)?;
        }
        Ok(bytes)
    };
    let bytes = if is_dash(path) {
        taken(&mut io::stdin().lock())
    } else {
        File::open(path).and_then(|mut f| taken(&mut f))
    };
    bytes.map_err(|e| Trouble::reading(path, e))
}

pub fn frame(path: &Path) -> Result<Frame, Trouble> {
    let bytes = read(path, MOST_FRAME, |two| two.starts_with(b"P"))?;
    pgm::read(&bytes).map_err(|f| Trouble::Refused(format!("{}: {f}", path.display())))
}

/// Points set by hand.
pub fn points(path: &Path) -> Result<Points, Trouble> {
    let bytes = read(path, MOST_POINTS, |_| true)?;
    let file = path.display().to_string();
    if bytes.len() as u64 == MOST_POINTS {
        return Err(Trouble::Refused(format!(
            "{file}: longer than {MOST_POINTS} bytes, and a sheet has at most 1048575 records"
        )));
    }
    points::read(&file, &bytes)
}

/// A sheet, or why what was read is none that is sound.
pub fn sheet_or_fault(path: &Path) -> Result<Result<Sheet, Trouble>, Trouble> {
    let bytes = read(path, MOST_SHEET, |_| true)?;
    Ok(read_sheet(&bytes).map_err(|r| unsound(path, &bytes, r)))
}

/// A sound sheet.
pub fn sheet(path: &Path) -> Result<Sheet, Trouble> {
    sheet_or_fault(path)?
}

/// Why a sheet is refused: the library's number and words, and what a look at its fields finds.
fn unsound(path: &Path, bytes: &[u8], refusal: Refusal) -> Trouble {
    let why = fault(bytes).unwrap_or("no fault was found by looking at its fields".into());
    Trouble::Refused(format!("{}: {refusal}: {why}", path.display()))
}

/// That what is written does not take the place of what is read.
pub fn apart(what: &str, from: &Path, to: &Path) -> Result<(), Trouble> {
    match (fs::canonicalize(from), fs::canonicalize(to)) {
        (Ok(a), Ok(b)) if a == b && b.is_file() => Err(Trouble::Usage(format!(
            "'{}' would take the place of the {what}",
            to.display()
        ))),
        _ => Ok(()),
    }
}

/// Writes a file whole or not at all: beside it first, and then in its place. What is no plain file, as a pipe, is written to.
pub fn write(path: &Path, bytes: &[u8]) -> Result<(), Trouble> {
    let to = |e| Trouble::writing(path, e);
    if is_dash(path) {
        let mut out = io::stdout().lock();
        return out.write_all(bytes).and_then(|()| out.flush()).map_err(to);
    }
    let place = fs::canonicalize(path).unwrap_or(path.into());
    if fs::metadata(&place).is_ok_and(|m| !m.is_file()) {
        return fs::write(&place, bytes).map_err(to);
    }
    let mut name = place.file_name().unwrap_or_default().to_os_string();
    name.push(format!(".{}.part", std::process::id()));
    let part = place.with_file_name(name);
    let written = fs::write(&part, bytes).and_then(|()| fs::rename(&part, &place));
    if written.is_err() {
        let _ = fs::remove_file(&part);
    }
    written.map_err(to)
}
