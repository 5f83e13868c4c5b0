//! Faults of a case, one for each line of refusals in their order.

use super::Case;
use super::bend::bend;
use super::change::Change;
use super::reads::{Reader, Reads, bad, spoil};
use crate::{Rng, sheet, table};

/// The lines in their order. Two are number 6: the stack's, and then the Gaussian planes'.
#[derive(Clone, Copy, Debug, PartialEq, Eq)]
pub enum Line {
    Shape,
    Layers,
    Length,
    Settings,
    Stack,
    Gauss,
    Sheet,
    Octave,
}

impl Line {
    pub const ALL: [Line; 8] = [
        Line::Shape,
        Line::Layers,
        Line::Length,
        Line::Settings,
        Line::Stack,
        Line::Gauss,
        Line::Sheet,
        Line::Octave,
    ];

    pub fn number(self) -> u32 {
        match self {
            Line::Shape => 1,
            Line::Layers => 2,
            Line::Length => 3,
            Line::Settings => 4,
            Line::Stack | Line::Gauss => 6,
            Line::Sheet => 8,
            Line::Octave => 5,
        }
    }

    /// Whether a case has such a fault, whatever other faults it has: of the Gaussian planes, whether any sample is bad.
    pub fn holds(self, c: &Case) -> bool {
        let plane = c.width.saturating_mul(c.height);
        let lengths = [(&c.dog, c.planes), (&c.gauss, c.planes.saturating_add(1))];
        let long = |list: &[f32], planes: usize| list.len() == plane.saturating_mul(planes);
        match self {
            Line::Shape => table::shape(c.width, c.height) || table::shape(c.base.0, c.base.1),
            Line::Layers => table::layers(1, c.settings.layers, c.planes),
            Line::Length => lengths.iter().any(|(list, planes)| !long(list, *planes)),
            Line::Settings => table::settings(&c.settings) || c.octave > 15,
            Line::Stack => c.dog.iter().any(|&x| table::sample(x)),
            Line::Gauss => c.gauss.iter().any(|&x| table::sample(x)),
            Line::Sheet => sheet::reading(&c.sheet).is_err(),
            Line::Octave => {
                let mut bytes = c.sheet.clone();
                let mut octaves = records(&mut bytes).iter().map(|r| r[3] >> 2 & 15);
                octaves.any(|octave| u32::from(octave) != c.octave)
            }
        }
    }
}

fn shape(r: &mut Rng, c: &mut Case) {
    let side = r.pick(&[0, 8193, 1 << 16, 1 << 32, usize::MAX]);
    match r.below(4) {
        0 => c.width = side,
        1 => c.height = side,
        2 => c.base.0 = side,
        _ => c.base.1 = side,
    }
}

fn layers(r: &mut Rng, c: &mut Case) {
    let planes = c.planes;
    match r.below(5) {
        0 => c.settings.layers = 0,
        1 => c.settings.layers = r.pick(&[planes - 1, planes, 16, 1 << 32, usize::MAX]),
        2 => c.planes = r.pick(&[0, 1, 2, c.settings.layers + 1]),
        3 => c.planes = r.pick(&[18, 1 << 32, usize::MAX - 1, usize::MAX]),
        _ => (c.settings.layers, c.planes) = (16, 18),
    }
}

fn length(r: &mut Rng, c: &mut Case) {
    let plane = c.width.saturating_mul(c.height);
    let list = if r.one_in(2) {
        &mut c.dog
    } else {
        &mut c.gauss
    };
    match r.below(5) {
        0 => list.push(0.0),
        1 => list.clear(),
        // a plane less or more, as where the two are taken for equally many
        2 => list.truncate(list.len().saturating_sub(plane)),
        3 if plane < 1 << 16 => list.resize(list.len() + plane, 0.0),
        _ => _ = list.pop(),
    }
}

fn settings(r: &mut Rng, c: &mut Case) {
    let s = &mut c.settings;
    let odd = r.pick(&[f64::NAN, f64::INFINITY, f64::NEG_INFINITY, -1.0, 1e30]);
    let beyond = |r: &mut Rng, lo: f64, hi: f64| r.pick(&[lo.next_down(), hi.next_up(), odd]);
    match r.below(4) {
        0 => s.contrast = beyond(r, 0.0, 1.0),
        1 => s.edge = beyond(r, 1.0, 1000.0),
        2 => s.sigma = beyond(r, 0.5, 16.0),
        _ => c.octave = r.pick(&[16, 17, 255, 256, 1 << 31, u32::MAX]),
    }
}

fn stack(r: &mut Rng, c: &mut Case) -> Option<()> {
    let last = c.dog.len().checked_sub(1)?;
    let at = match r.below(4) {
        0 => 0,
        1 => last,
        _ => r.below(last + 1),
    };
    c.dog[at] = bad(r);
    Some(())
}

/// A sound sheet is changed until it is not.
fn unsound(r: &mut Rng, c: &mut Case) {
    while sheet::reading(&c.sheet).is_ok() {
        let mut bytes = c.sheet.clone();
        let change = r.pick(&Change::UNSOUND);
        if bend(r, &mut bytes, change).is_some() && sheet::reading(&bytes).is_err() {
            c.sheet = bytes;
        }
    }
}

/// The whole records of a sheet.
fn records(sheet: &mut [u8]) -> &mut [[u8; sheet::RECORD]] {
    match sheet.get_mut(sheet::HEADER..) {
        Some(body) => body.as_chunks_mut().0,
        None => &mut [],
    }
}

/// A record of the sheet states another octave; none where it has no record.
fn other_octave(r: &mut Rng, c: &mut Case) -> Option<()> {
    let records = records(&mut c.sheet);
    let which = r.below(records.len().max(1));
    // the four bits behind the column
    records.get_mut(which)?[3] ^= (r.from_to(1, 15) as u8) << 2;
    Some(())
}

/// A case gets a fault of the line; none where it can't have one.
pub fn put(r: &mut Rng, c: &mut Case, reads: &Reads, line: Line) -> Option<()> {
    match line {
        Line::Shape => shape(r, c),
        Line::Layers => layers(r, c),
        Line::Length => length(r, c),
        Line::Settings => settings(r, c),
        Line::Stack => stack(r, c)?,
        Line::Gauss => {
            let patch = r.one_in(2).then(|| spoil(r, c, reads, Reader::Patch));
            if patch.flatten().is_none() {
                spoil(r, c, reads, Reader::Window)?;
            }
        }
        Line::Sheet => unsound(r, c),
        Line::Octave => other_octave(r, c)?,
    }
    Some(())
}
