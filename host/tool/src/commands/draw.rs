//! `bargeclover draw`: a frame with what is found in it, or with a sheet's records, which may be checked.

use super::{check, marks, print, progress, wanted};
use crate::args::Given;
use crate::cover::Thinned;
use crate::difference::Difference;
use crate::pgm::Frame;
use crate::table::Mark;
use crate::{Trouble, audit, draw, files, find, svg};
use bargeclover::Sheet;
use std::path::Path;

/// Whether a sheet is of the frame doubled; refused where it is of neither.
fn doubled(frame: &Frame, width: usize, height: usize) -> Result<bool, Trouble> {
    let of = |d| find::size(frame, d) == (width, height);
    match (of(false), of(true)) {
        (true, _) => Ok(false),
        (_, true) => Ok(true),
        _ => Err(Trouble::Refused(format!(
            "the sheet is of a frame of {width} x {height} cells, and this one has {} x {}; give the frame that the sheet was made from",
            frame.width, frame.height
        ))),
    }
}

/// The longest side of a picture.
const MOST_SIDE: usize = 32768;

fn zoom(frame: &Frame, given: &Given) -> Result<usize, Trouble> {
    let zoom = given.number("zoom", draw::natural_zoom(frame))?;
    if !(1..=16).contains(&zoom) {
        return Err(Trouble::Usage(format!("--zoom {zoom} is not 1 to 16")));
    }
    if frame.width.max(frame.height) * zoom > MOST_SIDE {
        return Err(Trouble::Usage(format!(
            "--zoom {zoom} would make a picture above {MOST_SIDE} cells on a side"
        )));
    }
    Ok(zoom)
}

/// What a picture shows on its frame.
enum Shown {
    Marks(Vec<Mark>),
    Thinned(Thinned),
    /// The marks of a sheet that was checked, its first difference, and what is said of it.
    Checked(Vec<Mark>, Option<Difference>, String),
}

/// The frame that is searched, and its keypoints.
fn searched(frame: &Path, given: &Given) -> Result<(Frame, Shown), Trouble> {
    if given.has("check") {
        return Err(Trouble::Usage(
            "--check is for a sheet, and none is given".into(),
        ));
    }
    let frame = files::frame(frame)?;
    let wanted = wanted(given)?;
    let shown = match wanted.cover {
        Some(cover) => {
            let (thinned, _) = find::thinned(&frame, &wanted, &cover, &mut progress(given))?;
            Shown::Thinned(thinned)
        }
        None => Shown::Marks(marks(&frame, given)?.0),
    };
    Ok((frame, shown))
}

const SEARCH: [&str; 7] = [
    "quota", "depth", "contrast", "edge", "sigma", "layers", "double",
];

/// The frame of a sheet, its marks, and whether they are of the frame doubled.
fn of_sheet(path: &Path, sheet: &Path, given: &Given) -> Result<(Frame, Shown, bool), Trouble> {
    // a check asks what the frame is searched with, and thins nothing
    let others = if given.has("check") {
        &SEARCH[..2]
    } else {
        &SEARCH
    };
    if let Some(o) = others.iter().find(|o| given.has(o)) {
        return Err(Trouble::Usage(format!(
            "--{o} is for a search, and a sheet is given"
        )));
    }
    let frame = files::frame(path)?;
    let read = files::sheet(sheet)?;
    let doubled = doubled(&frame, read.width, read.height)?;
    let marks = read.records.iter().map(Mark::of_record).collect();
    let shown = if given.has("check") {
        let (difference, line) = checked(&frame, sheet, &read, given)?;
        Shown::Checked(marks, difference, line)
    } else {
        Shown::Marks(marks)
    };
    Ok((frame, shown, doubled))
}

/// The first difference of a sheet, and what is said of it.
fn checked(
    frame: &Frame,
    path: &Path,
    sheet: &Sheet,
    given: &Given,
) -> Result<(Option<Difference>, String), Trouble> {
    let mut checked = audit::check(frame, &wanted(given)?, &[sheet], &mut progress(given))?;
    let difference = checked.differences.pop().flatten();
    let line = check::line(path, sheet, checked.octaves, difference.as_ref());
    Ok((difference, line))
}

pub fn run(given: &Given) -> Result<(), Trouble> {
    let out = given
        .path("output")
        .ok_or_else(|| Trouble::Usage("say where with -o OUT.png or -o OUT.svg".into()))?;
    let as_svg = match out.extension().and_then(|e| e.to_str()) {
        Some(e) if e.eq_ignore_ascii_case("png") => false,
        Some(e) if e.eq_ignore_ascii_case("svg") => true,
        _ => {
            return Err(Trouble::Usage(format!(
                "'{}' ends in neither .png nor .svg",
                out.display()
            )));
        }
    };
    let (frame, shown, doubled) = match given.files.as_slice() {
        [frame] => {
            let (frame, shown) = searched(frame, given)?;
            (frame, shown, given.has("double"))
        }
        [frame, sheet] => of_sheet(frame, sheet, given)?,
        [] => return Err(Trouble::Usage("name the frame, a PGM file".into())),
        [_, _, more, ..] => {
            return Err(Trouble::Usage(format!(
                "a frame and a sheet are taken, and '{}' is a third file",
                more.display()
            )));
        }
    };
    let zoom = zoom(&frame, given)?;
    let (f, d) = (&frame, doubled);
    let bytes = match (&shown, as_svg) {
        (Shown::Marks(m), true) => svg::to_svg(f, m, d, zoom).into_bytes(),
        (Shown::Marks(m), false) => draw::to_png(f, m, d, zoom),
        (Shown::Thinned(t), true) => svg::thinned_to_svg(f, t, d, zoom).into_bytes(),
        (Shown::Thinned(t), false) => draw::thinned_to_png(f, t, d, zoom),
        (Shown::Checked(m, x, _), true) => {
            svg::checked_to_svg(f, m, x.as_ref(), d, zoom).into_bytes()
        }
        (Shown::Checked(m, x, _), false) => draw::checked_to_png(f, m, x.as_ref(), d, zoom),
    };
    files::write(out, &bytes)?;
    let said = match &shown {
        Shown::Marks(_) => None,
        Shown::Thinned(t) => Some(format!("{}: {}", out.display(), t.tally())),
        Shown::Checked(_, _, line) => Some(line.clone()),
    };
    if let Some(said) = said
        && !given.has("quiet")
    {
        print(|to| writeln!(to, "{said}"))?;
    }
    match &shown {
        Shown::Checked(_, difference, _) => check::ended_with(difference.as_ref()),
        _ => Ok(()),
    }
}
