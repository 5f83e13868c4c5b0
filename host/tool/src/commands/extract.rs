//! `bargeclover extract`: what is asked for, where the sheets go, and what is said of them.

use super::{print, progress, wanted};
use crate::args::Given;
use crate::extract::{Extracted, Order, extract};
use crate::find::{self, EDITION, Wanted};
use crate::points::Points;
use crate::table::plural;
use crate::{Trouble, files};
use bargeclover::write_sheet;
use std::path::{Path, PathBuf};

/// Where the sheet of each frame goes: the file that is named, or in the folder that is named under the frame's own name.
fn sheets(frames: &[PathBuf], out: &Path) -> Result<Vec<PathBuf>, Trouble> {
    let usage = |words: String| Err(Trouble::Usage(words));
    if !out.is_dir() {
        return match frames {
            [] => usage("name the frame, a PGM file".into()),
            [_] => Ok(vec![out.into()]),
            _ => usage(format!(
                "several frames want a folder after -o, and there is no folder '{}'",
                out.display()
            )),
        };
    }
    let mut all: Vec<PathBuf> = Vec::new();
    for frame in frames {
        let name = Path::new(frame.file_name().unwrap_or_default());
        let place = out.join(name).with_extension("sheet");
        if all.contains(&place) {
            return usage(format!(
                "two frames would have the sheet '{}'",
                place.display()
            ));
        }
        all.push(place);
    }
    if all.is_empty() {
        return usage("name the frames, PGM files".into());
    }
    Ok(all)
}

/// The options that tell what to look for, and so have no meaning where nothing is.
const LOOKING: [&str; 4] = ["contrast", "edge", "quota", "depth"];

/// The points that are given, where they are, and whether only they are wanted.
fn points(given: &Given, sheets: &[PathBuf]) -> Result<(Points, bool), Trouble> {
    let usage = |words: String| Err(Trouble::Usage(words));
    let only = given.has("only-points");
    let Some(path) = given.path("points") else {
        return match only {
            true => usage("--only-points is for --points, and none are given".into()),
            false => Ok((Points::default(), false)),
        };
    };
    let [sheet] = sheets else {
        return usage("--points are those of one frame, and several are named".into());
    };
    if let Some(o) = LOOKING.iter().find(|o| only && given.has(o)) {
        return usage(format!(
            "--{o} is for a search, and --only-points leaves it out"
        ));
    }
    if given.files.iter().any(|f| f == path) {
        return usage(format!(
            "'{}' is named as frame and as points",
            path.display()
        ));
    }
    files::apart("points", path, sheet)?;
    Ok((files::points(path)?, only))
}

pub fn run(given: &Given) -> Result<(), Trouble> {
    let out = given
        .path("output")
        .ok_or_else(|| Trouble::Usage("say where with -o OUT.sheet".into()))?;
    let sheets = sheets(&given.files, out)?;
    for (frame, sheet) in given.files.iter().zip(&sheets) {
        files::apart("frame", frame, sheet)?;
    }
    let edition = given.number("edition", EDITION)?;
    let (points, unsearched) = points(given, &sheets)?;
    let order = Order { edition, points };
    order.accepted()?;
    let wanted = Wanted {
        unsearched,
        ..wanted(given)?
    };
    let mut failed = 0;
    for (frame, sheet) in given.files.iter().zip(&sheets) {
        match one(frame, sheet, &wanted, &order, given) {
            Err(Trouble::Closed) => return Err(Trouble::Closed),
            // of a roll the others are still made
            Err(t) if sheets.len() > 1 => {
                t.complain();
                failed += 1;
            }
            ended => ended?,
        }
    }
    if failed > 0 {
        let all = sheets.len();
        return Err(Trouble::Refused(format!(
            "{failed} of {all} frames have no sheet"
        )));
    }
    Ok(())
}

fn one(
    path: &Path,
    out: &Path,
    wanted: &Wanted,
    order: &Order,
    given: &Given,
) -> Result<(), Trouble> {
    let frame = files::frame(path)?;
    let made = extract(&frame, wanted, order, &mut progress(given))?;
    let bytes = write_sheet(&made.sheet).map_err(find::inside)?;
    files::write(out, &bytes)?;
    if given.has("quiet") || out.as_os_str() == "-" {
        return Ok(());
    }
    let from = sources(&made, wanted, given.has("points").then_some(&order.points));
    print(|to| {
        writeln!(
            to,
            "{}: edition {}, {}, the directions of {from}, of {} x {} cells",
            out.display(),
            made.sheet.edition,
            plural(made.sheet.records.len(), "record"),
            made.sheet.width,
            made.sheet.height
        )?;
        if let Some(tally) = made.tally {
            writeln!(to, "{tally}")?;
        }
        match made.zeros() {
            None => Ok(()),
            Some(zeros) if made.sheet.edition == 1 => {
                writeln!(to, "of them {zeros}, which edition 1 leaves unknown")
            }
            Some(zeros) => writeln!(to, "of them {zeros}"),
        }
    })
}

/// What the records are the directions of.
fn sources(made: &Extracted, wanted: &Wanted, points: Option<&Points>) -> String {
    let keypoints = plural(made.keypoints, "keypoint");
    match points.map(|p| plural(p.list.len(), "given point")) {
        None => keypoints,
        Some(points) if wanted.unsearched => points,
        Some(points) => format!("{keypoints} and {points}"),
    }
}
