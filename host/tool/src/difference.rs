//! Where a sheet first differs from what the rules give, in words and for a picture.

use crate::table::Mark;
use bargeclover::{Field, HeaderField, Record};
use std::fmt;

/// Records have their numbers in the whole sheet, from 0.
#[derive(Clone, Debug, PartialEq)]
pub enum Difference {
    /// The header is not that of the frame and of the settings.
    Header {
        field: HeaderField,
        is: usize,
        wanted: usize,
        /// Whether the frame was doubled, and whether the sheet's size is that of the frame the other way.
        doubled: bool,
        other_way: bool,
    },
    /// A record stands behind one of a later octave.
    Order {
        record: usize,
        mark: Mark,
        behind: u32,
    },
    /// A record has another field than the one that the rules give in its place.
    Field {
        record: usize,
        mark: Mark,
        name: String,
        is: String,
        rules: String,
        /// The number under which the rules have this very record.
        same: Option<usize>,
    },
    /// The rules give more records of an octave; the first of them.
    Missing {
        from: usize,
        more: usize,
        mark: Mark,
    },
    /// The rules give no more records of an octave, or the frame has no such octave; the first that is left over.
    LeftOver {
        from: usize,
        mark: Mark,
        no_octave: bool,
    },
}

/// The name of a record's field.
pub fn name(field: Field) -> String {
    match field {
        Field::Blank => "blank".into(),
        other => other.to_string(),
    }
}

/// A record's field. Floats that differ are written differently.
pub fn value(record: &Record, field: Field) -> String {
    match field {
        Field::Row => record.row.to_string(),
        Field::Column => record.column.to_string(),
        Field::Layer => record.layer.to_string(),
        Field::Code => record.code.to_string(),
        Field::Blank => record.blank.to_word().to_string(),
        Field::X => record.x.to_string(),
        Field::Y => record.y.to_string(),
        Field::Size => record.size.to_string(),
        Field::Response => record.response.to_string(),
        Field::Angle => record.angle.to_string(),
        Field::Value(k) => record.values[k].to_string(),
    }
}

impl Difference {
    /// What differs, in letters that a picture has.
    pub fn words(&self) -> String {
        use Difference::*;
        match self {
            Header {
                field: HeaderField::Layers,
                is,
                wanted,
                ..
            } => format!("layers are {is}, --layers is {wanted}"),
            Header {
                field,
                is,
                wanted,
                doubled,
                ..
            } => {
                let doubled = if *doubled { "doubled " } else { "" };
                format!("{field} is {is}, the {doubled}frame has {wanted}")
            }
            Order {
                record,
                mark,
                behind,
            } => format!(
                "record {record}: octave is {}, behind a record of octave {behind}",
                mark.octave
            ),
            Field {
                record,
                name,
                is,
                rules,
                ..
            } => format!("record {record}: {name} is {is}, the rules give {rules}"),
            Missing { from, more, mark } => format!(
                "records are missing from {from} on: the rules give {more} more of octave {}",
                mark.octave
            ),
            LeftOver {
                from,
                mark,
                no_octave,
            } => {
                let why = if *no_octave {
                    "the frame has no"
                } else {
                    "the rules give no more of"
                };
                let octave = mark.octave;
                format!("records are left over from {from} on: {why} octave {octave}")
            }
        }
    }

    /// The record to look at: of the sheet, or where records are missing the first of them.
    pub fn mark(&self) -> Option<&Mark> {
        match self {
            Difference::Header { .. } => None,
            Difference::Order { mark, .. }
            | Difference::Field { mark, .. }
            | Difference::Missing { mark, .. }
            | Difference::LeftOver { mark, .. } => Some(mark),
        }
    }

    /// Whether that record is one which the sheet does not have.
    pub fn is_missing(&self) -> bool {
        matches!(self, Difference::Missing { .. })
    }
}

/// The words, and what helps to find the place or to mend the command.
impl fmt::Display for Difference {
    fn fmt(&self, f: &mut fmt::Formatter<'_>) -> fmt::Result {
        use Difference::*;
        write!(f, "{}", self.words())?;
        let at = |m: &Mark| format!("x {:.2}, y {:.2}", m.x, m.y);
        match self {
            Header {
                is,
                doubled,
                other_way: true,
                ..
            } => {
                let how = if *doubled { "without" } else { "with" };
                write!(f, " ({is} {how} --double)")
            }
            Header { .. } => Ok(()),
            Order { mark, .. } => write!(f, " ({})", at(mark)),
            Field { mark, same, .. } => {
                if let Some(same) = same {
                    write!(f, "; by the rules it is record {same}")?;
                }
                write!(f, " (octave {}, {})", mark.octave, at(mark))
            }
            Missing { mark, .. } | LeftOver { mark, .. } => write!(f, " (first {})", at(mark)),
        }
    }
}
