//! The numbers of refusals (rule A2) in words.

use std::error::Error;
use std::fmt;

/// Why an entry refused. Its checks go down the table in this order, and the first fault wins; but `read_sheet` asks 8 before 7, and
/// `check_sheet` asks 5 last.
#[derive(Clone, Copy, Debug, PartialEq, Eq)]
pub enum Refusal {
    /// 1: a side is not 1 to 8,192.
    Shape,
    /// 2: layer, layers and planes do not fit together, or are too many.
    Layers,
    /// 3: the samples are not as many as the shape says.
    Length,
    /// 4: a setting is out of its range, or a sheet's edition is not known.
    Settings,
    /// 5: a field of a keypoint or of a record, a quota or a depth is out of its range, or a checked record is of another octave.
    Field,
    /// 6: a sample is no number of at most 2^20 in magnitude.
    Sample,
    /// 7: there is too little room; this is the count that is needed.
    Room { needed: usize },
    /// 8: the bytes are no sheet that keeps its rules.
    Sheet,
}

impl Refusal {
    /// What an entry answered: nothing for 0.
    pub(crate) fn from_answer(number: u32, count: usize) -> Result<(), Refusal> {
        Err(match number {
            0 => return Ok(()),
            1 => Refusal::Shape,
            2 => Refusal::Layers,
            3 => Refusal::Length,
            4 => Refusal::Settings,
            5 => Refusal::Field,
            6 => Refusal::Sample,
            7 => Refusal::Room { needed: count },
            8 => Refusal::Sheet,
            n => unreachable!("no entry answers {n}"),
        })
    }

    /// Its number in the table of refusals.
    pub fn number(self) -> u32 {
        match self {
            Refusal::Shape => 1,
            Refusal::Layers => 2,
            Refusal::Length => 3,
            Refusal::Settings => 4,
            Refusal::Field => 5,
            Refusal::Sample => 6,
            Refusal::Room { .. } => 7,
            Refusal::Sheet => 8,
        }
    }
}

impl fmt::Display for Refusal {
    fn fmt(&self, f: &mut fmt::Formatter<'_>) -> fmt::Result {
        write!(f, "refused with number {}: ", self.number())?;
        match self {
            Refusal::Shape => write!(f, "a side of the picture is not 1 to 8192"),
            Refusal::Layers => write!(
                f,
                "layers must be 1 to 15, the layer one of them, and planes layers + 2 to 17"
            ),
            Refusal::Length => write!(f, "the samples are not as many as the shape says"),
            Refusal::Settings => write!(
                f,
                "contrast must be 0 to 1, edge 1 to 1000, sigma 0.5 to 16, octave 0 to 15 and edition 1 or 2"
            ),
            Refusal::Field => write!(
                f,
                "a field of a keypoint or of a record, a quota or a depth is out of its range"
            ),
            Refusal::Sample => write!(f, "a sample is no number of at most 2^20 in magnitude"),
            Refusal::Room { needed } => write!(f, "too little room: {needed} needed"),
            Refusal::Sheet => write!(f, "the bytes are no sheet that keeps its rules"),
        }
    }
}

impl Error for Refusal {}
