//! The draft of a sheet, and what is changed in it before it is written.

use super::change::Change;
use super::field::{another, with_field};
use super::{Case, Made};
use crate::record::WORDS;
use crate::{Rng, sheet, thinning};

/// The frame that a header states, and the records.
pub(super) struct Draft {
    pub edition: u32,
    pub width: usize,
    pub height: usize,
    pub layers: usize,
    pub records: Vec<[u32; WORDS]>,
}

impl Draft {
    /// Of all the records.
    pub fn new(c: &Case, made: &Made, edition: u32) -> Draft {
        Draft {
            edition,
            width: c.base.0,
            height: c.base.1,
            layers: c.settings.layers,
            records: made.records.iter().map(|e| e.words).collect(),
        }
    }

    pub fn bytes(&self) -> Vec<u8> {
        let mut c = sheet::Case {
            edition: self.edition,
            width: self.width,
            height: self.height,
            layers: self.layers,
            words: Vec::new(),
        };
        let each = c.words_each().unwrap();
        for record in &self.records {
            c.words.extend(&record[..each]);
        }
        sheet::written(&c)
    }

    /// The place of any record; none where there is none.
    fn place(&self, r: &mut Rng) -> Option<usize> {
        let many = self.records.len();
        (many > 0).then(|| r.below(many))
    }
}

/// A field of some record.
fn field(r: &mut Rng, d: &mut Draft, which: Change) -> Option<()> {
    let place = d.place(r)?;
    let record = d.records[place];
    d.records[place] = with_field(r, d, record, which)?;
    Some(())
}

/// A record that no keypoint has.
fn made_up(r: &mut Rng, d: &Draft, octave: u32) -> [u32; WORDS] {
    let mut w = [0; WORDS];
    w[0] = r.below(d.height) as u32;
    w[1] = r.below(d.width) as u32;
    w[2] = octave;
    w[3] = r.from_to(1, d.layers) as u32;
    w[4] = r.below(256) as u32;
    w[5..9].fill_with(|| sheet::float(r).max(1));
    w[9] = ((359.9 * r.unit()) as f32).to_bits();
    w
}

/// What a quota of half of the keypoints keeps.
fn thinned(r: &mut Rng, d: &mut Draft, made: &Made) -> Option<()> {
    let many = made.keypoints.len();
    let c = thinning::Case {
        width: 8192,
        height: 8192,
        words: made.keypoints.concat(),
        quota: many / 2,
        depth: r.pick(&[0, 12]),
    };
    if thinning::reason(&c).is_some() {
        return None;
    }
    let kept = thinning::kept(&c);
    let entries = made.records.iter();
    let entries = entries.filter(|e| kept.contains(&(e.keypoint as u32)));
    d.records = entries.map(|e| e.words).collect();
    Some(())
}

fn header(r: &mut Rng, d: &mut Draft, which: Change) -> Option<()> {
    let most = |word: usize| d.records.iter().map(|w| w[word] as usize).max();
    match which {
        Change::Width => d.width = another(r, d.width, most(1).unwrap_or(0) + 1, 8192)?,
        Change::Height => d.height = another(r, d.height, most(0).unwrap_or(0) + 1, 8192)?,
        _ => d.layers = another(r, d.layers, most(3).unwrap_or(1), 15)?,
    }
    Some(())
}

impl Draft {
    /// Records, or the header, are changed; none where there is nothing that could be so changed.
    pub fn change(&mut self, r: &mut Rng, c: &Case, made: &Made, change: Change) -> Option<()> {
        const SIDES: [Change; 3] = [Change::Width, Change::Height, Change::Layers];
        let d = self;
        match change {
            Change::Whole => {}
            Change::Twice => {
                for _ in 0..2 {
                    let which = r.pick(&Change::FIELDS);
                    field(r, d, which)?;
                }
            }
            Change::Dropped => {
                let place = d.place(r)?;
                d.records.remove(place);
            }
            Change::Doubled => {
                let place = d.place(r)?;
                d.records.insert(place, d.records[place]);
            }
            Change::Swapped => {
                let (a, b) = (d.place(r)?, d.place(r)?);
                let b = if r.one_in(2) {
                    b
                } else {
                    (a + 1) % d.records.len()
                };
                if a == b {
                    return None;
                }
                d.records.swap(a, b);
            }
            Change::Added => {
                let more = match d.place(r) {
                    Some(place) if r.one_in(2) => d.records[place],
                    _ => made_up(r, d, c.octave),
                };
                d.records.push(more);
            }
            Change::Thinned => thinned(r, d, made)?,
            Change::Emptied => d.records.clear(),
            Change::Width | Change::Height | Change::Layers => header(r, d, change)?,
            Change::HeaderToo => {
                let (one, other) = (r.pick(&SIDES), r.pick(&SIDES));
                header(r, d, one)?;
                if r.one_in(2) || d.records.is_empty() {
                    header(r, d, other)?;
                } else {
                    let which = r.pick(&Change::FIELDS);
                    field(r, d, which)?;
                }
            }
            Change::Octave => {
                let place = d.place(r)?;
                let now = d.records[place][2] as usize;
                d.records[place][2] = another(r, now, 0, 15)? as u32;
            }
            _ => field(r, d, change)?,
        }
        Some(())
    }
}
