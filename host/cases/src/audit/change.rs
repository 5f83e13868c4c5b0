//! Sheets of an octave: whole, and with one thing changed, so that it stays sound or does not.

use super::bend::bend;
use super::draft::Draft;
use super::{Case, Made};
use crate::Rng;

/// What is changed. Up to `Bit` the sheet stays sound as a rule, and from there on it is refused as a rule.
#[derive(Clone, Copy, Debug, PartialEq, Eq)]
pub enum Change {
    Whole,
    /// A field of a record.
    Row,
    Column,
    Layer,
    Code,
    Blank,
    X,
    Y,
    Size,
    Response,
    Angle,
    Value,
    /// Fields of two records, or two of one.
    Twice,
    Dropped,
    Doubled,
    Swapped,
    Added,
    /// The records of those keypoints that a quota keeps.
    Thinned,
    Emptied,
    Width,
    Height,
    Layers,
    /// Two fields of the header, or one and a record.
    HeaderToo,
    /// Edition 1 stated for records of edition 2, or the other way round.
    OtherEdition,
    /// Any bit of the header or of a record.
    Bit,
    /// A field of a record, or the layers of the header, out of its range.
    Outside,
    ZeroBit,
    SpareBit,
    UnknownEdition,
    Count,
    Cut,
    Longer,
    /// A record of another octave.
    Octave,
}

impl Change {
    pub const ALL: [Change; 33] = [
        Change::Whole,
        Change::Row,
        Change::Column,
        Change::Layer,
        Change::Code,
        Change::Blank,
        Change::X,
        Change::Y,
        Change::Size,
        Change::Response,
        Change::Angle,
        Change::Value,
        Change::Twice,
        Change::Dropped,
        Change::Doubled,
        Change::Swapped,
        Change::Added,
        Change::Thinned,
        Change::Emptied,
        Change::Width,
        Change::Height,
        Change::Layers,
        Change::HeaderToo,
        Change::OtherEdition,
        Change::Bit,
        Change::Outside,
        Change::ZeroBit,
        Change::SpareBit,
        Change::UnknownEdition,
        Change::Count,
        Change::Cut,
        Change::Longer,
        Change::Octave,
    ];

    /// After these no sheet of some records is sound.
    pub const UNSOUND: [Change; 7] = [
        Change::Outside,
        Change::ZeroBit,
        Change::SpareBit,
        Change::UnknownEdition,
        Change::Count,
        Change::Cut,
        Change::Longer,
    ];

    /// Each is of a field of a record, which stays lawful.
    pub(super) const FIELDS: [Change; 11] = [
        Change::Row,
        Change::Column,
        Change::Layer,
        Change::Code,
        Change::Blank,
        Change::X,
        Change::Y,
        Change::Size,
        Change::Response,
        Change::Angle,
        Change::Value,
    ];
}

/// Whether a change is one of the bytes.
fn of_bytes(change: Change) -> bool {
    let more = [Change::OtherEdition, Change::Bit];
    more.contains(&change) || Change::UNSOUND.contains(&change)
}

/// The sheet of all the records, of an edition.
pub fn whole(c: &Case, made: &Made, edition: u32) -> Vec<u8> {
    Draft::new(c, made, edition).bytes()
}

/// The same, with one thing changed; none where there is nothing that could be so changed.
pub fn changed(
    r: &mut Rng,
    c: &Case,
    made: &Made,
    edition: u32,
    change: Change,
) -> Option<Vec<u8>> {
    let mut d = Draft::new(c, made, edition);
    if of_bytes(change) {
        let mut bytes = d.bytes();
        bend(r, &mut bytes, change)?;
        return Some(bytes);
    }
    d.change(r, c, made, change)?;
    Some(d.bytes())
}
