//! A sheet held to the planes of one octave.

use crate::{Refusal, Settings, Stack, entries};
use std::fmt;

/// A field of a sheet's header that can differ. Every known edition is taken, and the count is told by the records.
#[derive(Clone, Copy, Debug, PartialEq, Eq)]
pub enum HeaderField {
    Width,
    Height,
    Layers,
}

impl HeaderField {
    fn from_number(number: u32) -> HeaderField {
        match number {
            2 => HeaderField::Width,
            3 => HeaderField::Height,
            4 => HeaderField::Layers,
            n => unreachable!("no header differs in field {n}"),
        }
    }

    /// Its number in the sheet's order, from 1.
    pub fn number(self) -> u32 {
        match self {
            HeaderField::Width => 2,
            HeaderField::Height => 3,
            HeaderField::Layers => 4,
        }
    }
}

impl fmt::Display for HeaderField {
    fn fmt(&self, f: &mut fmt::Formatter<'_>) -> fmt::Result {
        f.write_str(match self {
            HeaderField::Width => "width",
            HeaderField::Height => "height",
            HeaderField::Layers => "layers",
        })
    }
}

/// A field of a record that can differ. A sheet with another octave, or with a zero bit that is set, is refused.
#[derive(Clone, Copy, Debug, PartialEq, Eq)]
pub enum Field {
    Row,
    Column,
    Layer,
    Code,
    Blank,
    X,
    Y,
    Size,
    Response,
    Angle,
    /// One of the 128 values, from 0.
    Value(usize),
}

impl Field {
    /// All but the values, each with its number in the sheet's order, from 1, and its name.
    const NAMED: [(Field, u32, &'static str); 10] = [
        (Field::Row, 1, "row"),
        (Field::Column, 2, "column"),
        (Field::Layer, 4, "layer"),
        (Field::Code, 5, "code"),
        (Field::Blank, 6, "blank bit"),
        (Field::X, 8, "x"),
        (Field::Y, 9, "y"),
        (Field::Size, 10, "size"),
        (Field::Response, 11, "response"),
        (Field::Angle, 12, "angle"),
    ];

    /// The number of the first value.
    const VALUES: u32 = 13;

    fn from_number(number: u32) -> Field {
        if let Some(value @ 0..128) = number.checked_sub(Field::VALUES) {
            return Field::Value(value as usize);
        }
        let named = Field::NAMED.iter().find(|n| n.1 == number);
        named.map_or_else(
            || unreachable!("no record differs in field {number}"),
            |n| n.0,
        )
    }

    /// Its number in the sheet's order, from 1.
    pub fn number(self) -> u32 {
        match self {
            Field::Value(value) => Field::VALUES + value as u32,
            _ => Field::NAMED.iter().find(|n| n.0 == self).unwrap().1,
        }
    }
}

impl fmt::Display for Field {
    fn fmt(&self, f: &mut fmt::Formatter<'_>) -> fmt::Result {
        match self {
            Field::Value(value) => write!(f, "value {value}"),
            _ => f.write_str(Field::NAMED.iter().find(|n| n.0 == *self).unwrap().2),
        }
    }
}

/// What came of a check: the first difference, if there is one. Records are counted from 0.
#[derive(Clone, Copy, Debug, PartialEq, Eq)]
pub enum Verdict {
    /// The sheet has exactly the records of the rules, in their order.
    Accepted,
    /// Its header is not that of the frame and of the settings.
    Header(HeaderField),
    Record {
        record: usize,
        field: Field,
    },
    /// It ends before the record of this number, and so far all are equal.
    Missing {
        from: usize,
    },
    /// All records of the rules are there, and then others, from this number on.
    LeftOver {
        from: usize,
    },
}

impl Verdict {
    /// What the entry answered beside 0.
    fn from_answer(verdict: u32, record: usize, field: u32) -> Verdict {
        match verdict {
            0 => Verdict::Accepted,
            1 => Verdict::Header(HeaderField::from_number(field)),
            2 => Verdict::Record {
                record,
                field: Field::from_number(field),
            },
            3 => Verdict::Missing { from: record },
            4 => Verdict::LeftOver { from: record },
            n => unreachable!("there is no verdict {n}"),
        }
    }
}

impl fmt::Display for Verdict {
    fn fmt(&self, f: &mut fmt::Formatter<'_>) -> fmt::Result {
        match self {
            Verdict::Accepted => write!(f, "accepted"),
            Verdict::Header(field) => write!(f, "the header differs in its {field}"),
            Verdict::Record { record, field } => {
                write!(f, "record {record} differs in its {field}")
            }
            Verdict::Missing { from } => write!(f, "records are missing from {from} on"),
            Verdict::LeftOver { from } => write!(f, "records are left over from {from} on"),
        }
    }
}

/// Whether the bytes of a sheet are those of the records that the rules give for an octave: layer by layer, in each keypoint by keypoint
/// as [`find_extrema`](crate::find_extrema) lists them, of each its directions in their order. And if not, the first difference.
///
/// `gauss` has one plane more than the stack, plane after plane: a keypoint that settled in layer l is turned and described on number l,
/// from 0. `base` is the width and the height of octave 0. Refused with 1, 2, 3, 4, 6 (any sample of the stack, and those of `gauss` that
/// are read), 8 (no sound sheet) or then 5 (a record of another octave).
///
/// ```
/// use bargeclover::{Settings, Sheet, Stack, Verdict, check_sheet, write_sheet};
///
/// // Three planes of 11 x 11 zeros have no keypoint, and an empty sheet says so.
/// let stack = Stack { samples: &[0.0; 3 * 11 * 11], width: 11, height: 11, planes: 3 };
/// let settings = Settings { layers: 1, ..Settings::default() };
/// let empty = Sheet { edition: 2, width: 640, height: 480, layers: 1, records: vec![] };
/// let sheet = write_sheet(&empty)?;
/// let told = check_sheet(&stack, &[0.0; 4 * 11 * 11], 5, &settings, (640, 480), &sheet)?;
/// assert_eq!(told, Verdict::Accepted);
/// let told = check_sheet(&stack, &[0.0; 4 * 11 * 11], 5, &settings, (640, 512), &sheet)?;
/// assert_eq!(told.to_string(), "the header differs in its height");
/// # Ok::<(), bargeclover::Refusal>(())
/// ```
pub fn check_sheet(
    stack: &Stack,
    gauss: &[f32],
    octave: u32,
    settings: &Settings,
    base: (usize, usize),
    sheet: &[u8],
) -> Result<Verdict, Refusal> {
    let (number, verdict, record, field) =
        entries::check_sheet(stack, gauss, octave, settings, base, sheet);
    Refusal::from_answer(number, 0)?;
    Ok(Verdict::from_answer(verdict, record, field))
}

#[cfg(test)]
mod tests {
    use super::*;

    #[test]
    fn fields_have_their_numbers_and_names() {
        let never = [3, 7];
        for number in (1..=140).filter(|n| !never.contains(n)) {
            assert_eq!(Field::from_number(number).number(), number);
        }
        for number in 2..=4 {
            assert_eq!(HeaderField::from_number(number).number(), number);
        }
        assert_eq!(Field::from_number(12).to_string(), "angle");
        assert_eq!(Field::from_number(30), Field::Value(17));
        assert_eq!(Field::Value(127).number(), 140);
        assert_eq!(Field::Value(17).to_string(), "value 17");
    }

    #[test]
    fn verdicts_in_words() {
        let told = |v, record, field| Verdict::from_answer(v, record, field).to_string();
        assert_eq!(told(0, 0, 0), "accepted");
        assert_eq!(told(1, 0, 4), "the header differs in its layers");
        assert_eq!(told(2, 7, 6), "record 7 differs in its blank bit");
        assert_eq!(told(3, 7, 0), "records are missing from 7 on");
        assert_eq!(told(4, 7, 0), "records are left over from 7 on");
    }
}
