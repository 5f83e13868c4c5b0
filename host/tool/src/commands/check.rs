//! `bargeclover check`: whether sheets are sound, and whether they are what the rules give of a frame.

use super::{print, progress, wanted};
use crate::args::Given;
use crate::difference::Difference;
use crate::{Trouble, audit, files, table};
use bargeclover::Sheet;
use std::path::Path;

/// The options that are for a frame.
const OF_FRAME: [&str; 5] = ["contrast", "edge", "sigma", "layers", "double"];

pub fn run(given: &Given) -> Result<(), Trouble> {
    if given.files.is_empty() {
        return Err(Trouble::Usage("name the sheets".into()));
    }
    match given.path("against") {
        Some(frame) => against(frame, given),
        None => sound(given),
    }
}

fn sound(given: &Given) -> Result<(), Trouble> {
    if let Some(o) = OF_FRAME.iter().find(|o| given.has(o)) {
        return Err(Trouble::Usage(format!(
            "--{o} is for a frame, and no --against is given"
        )));
    }
    let mut broken = 0;
    for path in &given.files {
        let words = match files::sheet_or_fault(path)? {
            Ok(sheet) => format!("{}: sound: {}", path.display(), table::summary(&sheet)),
            Err(unsound) => {
                broken += 1;
                unsound.to_string()
            }
        };
        print(|out| writeln!(out, "{words}"))?;
    }
    ended(broken, given.files.len(), ["sound"; 2])
}

fn against(frame: &Path, given: &Given) -> Result<(), Trouble> {
    let frame = files::frame(frame)?;
    let wanted = wanted(given)?;
    let each = given.files.iter().map(|path| files::sheet_or_fault(path));
    let sheets = each.collect::<Result<Vec<_>, _>>()?;
    let sound: Vec<&Sheet> = sheets.iter().flatten().collect();
    let checked = audit::check(&frame, &wanted, &sound, &mut progress(given))?;
    let mut differences = checked.differences.iter();
    let mut failed = 0;
    for (path, sheet) in given.files.iter().zip(&sheets) {
        let words = match sheet {
            Ok(sheet) => {
                let difference = differences.next().and_then(Option::as_ref);
                failed += usize::from(difference.is_some());
                line(path, sheet, checked.octaves, difference)
            }
            Err(unsound) => {
                failed += 1;
                unsound.to_string()
            }
        };
        print(|out| writeln!(out, "{words}"))?;
    }
    ended(failed, sheets.len(), AS_THE_RULES)
}

/// Of one sheet, and of several.
const AS_THE_RULES: [&str; 2] = ["as the rules give it", "as the rules give them"];

/// What is said of a sheet that was checked.
pub fn line(path: &Path, sheet: &Sheet, octaves: usize, difference: Option<&Difference>) -> String {
    let path = path.display();
    match difference {
        Some(difference) => format!("{path}: {difference}"),
        None => {
            let words = table::summary_in(sheet, octaves);
            format!("{path}: {}: {words}", AS_THE_RULES[0])
        }
    }
}

/// What is said at last, where a sheet is not what it should be.
fn ended(failed: usize, all: usize, [one, several]: [&str; 2]) -> Result<(), Trouble> {
    match (failed, all) {
        (0, _) => Ok(()),
        (1, 1) => Err(Trouble::Refused(format!("the sheet is not {one}"))),
        _ => Err(Trouble::Refused(format!(
            "{failed} of {all} sheets are not {several}"
        ))),
    }
}

/// The same of the one sheet that was checked.
pub fn ended_with(difference: Option<&Difference>) -> Result<(), Trouble> {
    ended(usize::from(difference.is_some()), 1, AS_THE_RULES)
}
