//! The checker of a sheet a second time: what it refuses, and where a sheet first differs from the records of an octave. The records are
//! those that stages handed in give, the published Rust's as a rule; the sheet is read bit by bit by `sheet`.

mod bend;
pub mod change;
mod draft;
pub mod fault;
mod field;
pub mod octave;
pub mod reads;

use crate::picture::Picture;
use crate::record::{self, WORDS};
use crate::{descriptor, orientation, sheet, table};
use bargeclover::{Settings, Stack};

/// What `check_sheet` is handed. A damaged case may have any number anywhere.
#[derive(Clone, Debug)]
pub struct Case {
    pub dog: Vec<f32>,
    pub gauss: Vec<f32>,
    pub width: usize,
    pub height: usize,
    pub planes: usize,
    pub octave: u32,
    pub settings: Settings,
    /// Width and height of octave 0.
    pub base: (usize, usize),
    pub sheet: Vec<u8>,
}

impl Case {
    pub fn stack(&self) -> Stack<'_> {
        Stack {
            samples: &self.dog,
            width: self.width,
            height: self.height,
            planes: self.planes,
        }
    }

    /// The Gaussian plane of a number.
    fn plane(&self, number: usize) -> Picture {
        let size = self.width * self.height;
        Picture {
            samples: self.gauss[number * size..][..size].to_vec(),
            width: self.width,
            height: self.height,
        }
    }
}

/// The directions of a keypoint, six words each, and the cells read.
type Directions = (Vec<[u32; 6]>, usize);

/// A descriptor's values by their bits, and the samples used.
type Values = ([u32; 128], usize);

/// Detection of a layer, the directions of a keypoint, what a descriptor is asked with, and the descriptor. What the library refuses is
/// not handed to them.
pub struct Stages {
    pub find: fn(&Stack, usize, u32, &Settings) -> Vec<[u32; 10]>,
    pub assign: fn(&[f32], usize, usize, &[u32; 10]) -> Directions,
    pub inputs: fn(&[u32; 6], i32) -> [u32; 4],
    pub describe: fn(&[f32], usize, usize, [f32; 4]) -> Values,
}

/// Why a case is refused; where several hold, the first.
#[derive(Clone, Copy, Debug, PartialEq, Eq)]
pub enum Reason {
    /// A side of the planes, or of octave 0.
    Side,
    BaseSide,
    Layers,
    StackLength,
    GaussLength,
    /// Contrast, edge or sigma.
    Setting,
    Octave,
    StackSample,
    /// A Gaussian cell that is read for the directions of a keypoint, or for a descriptor.
    WindowSample,
    PatchSample,
    Sheet(sheet::Reason),
    /// A record of another octave.
    OtherOctave,
}

impl Reason {
    /// All but those of a sheet.
    pub const ALL: [Reason; 11] = [
        Reason::Side,
        Reason::BaseSide,
        Reason::Layers,
        Reason::StackLength,
        Reason::GaussLength,
        Reason::Setting,
        Reason::Octave,
        Reason::StackSample,
        Reason::WindowSample,
        Reason::PatchSample,
        Reason::OtherOctave,
    ];

    pub fn number(self) -> u32 {
        match self {
            Reason::Side | Reason::BaseSide => 1,
            Reason::Layers => 2,
            Reason::StackLength | Reason::GaussLength => 3,
            Reason::Setting | Reason::Octave => 4,
            Reason::StackSample | Reason::WindowSample | Reason::PatchSample => 6,
            Reason::Sheet(_) => 8,
            Reason::OtherOctave => 5,
        }
    }
}

/// What comes of a case: records from 0, fields by their number.
#[derive(Clone, Copy, Debug, PartialEq, Eq)]
pub enum Outcome {
    Refused(Reason),
    Accepted,
    Header(u32),
    Record(usize, u32),
    Missing(usize),
    LeftOver(usize),
}

impl Outcome {
    /// The number, the verdict, the record and the field.
    pub fn told(self) -> (u32, u32, usize, u32) {
        match self {
            Outcome::Refused(reason) => (reason.number(), 0, 0, 0),
            Outcome::Accepted => (0, 0, 0, 0),
            Outcome::Header(field) => (0, 1, 0, field),
            Outcome::Record(record, field) => (0, 2, record, field),
            Outcome::Missing(from) => (0, 3, from, 0),
            Outcome::LeftOver(from) => (0, 4, from, 0),
        }
    }
}

/// Why a case is refused before its Gaussian planes are read.
fn form(c: &Case) -> Option<Reason> {
    let s = &c.settings;
    let plane = || c.width as u128 * c.height as u128;
    let has = |list: &[f32], planes: usize| list.len() as u128 == planes as u128 * plane();
    // each is asked only where those before it do not hold, so that no product is large
    let lines: [(Reason, &dyn Fn() -> bool); 8] = [
        (Reason::Side, &|| table::shape(c.width, c.height)),
        (Reason::BaseSide, &|| table::shape(c.base.0, c.base.1)),
        (Reason::Layers, &|| table::layers(1, s.layers, c.planes)),
        (Reason::StackLength, &|| !has(&c.dog, c.planes)),
        (Reason::GaussLength, &|| !has(&c.gauss, c.planes + 1)),
        (Reason::Setting, &|| table::settings(s)),
        (Reason::Octave, &|| c.octave > 15),
        (Reason::StackSample, &|| {
            c.dog.iter().any(|&x| table::sample(x))
        }),
    ];
    lines.iter().find(|l| (l.1)()).map(|l| l.0)
}

/// A record that was made: the place of its keypoint in the list, where it was described, and its words.
#[derive(Clone, Debug)]
pub struct Entry {
    pub keypoint: usize,
    pub at: [f32; 4],
    pub words: [u32; WORDS],
}

/// The keypoints of an octave and their records, both in the order of a sheet.
#[derive(Clone, Debug, Default)]
pub struct Made {
    pub keypoints: Vec<[u32; 10]>,
    /// The layer that was searched when a keypoint was found.
    pub searched: Vec<usize>,
    pub records: Vec<Entry>,
}

/// The records of a keypoint, on the plane of the layer where it settled.
fn made_of(
    c: &Case,
    s: &Stages,
    keypoint: usize,
    k: &[u32; 10],
    all: &mut Vec<Entry>,
) -> Result<(), Reason> {
    let mut here = orientation::Case {
        picture: c.plane(k[5] as usize),
        keypoint: k.to_vec(),
    };
    match orientation::fault(&here) {
        0 => {}
        6 => return Err(Reason::WindowSample),
        n => panic!("a keypoint that was found is refused with {n}: {k:x?}"),
    }
    let samples = std::mem::take(&mut here.picture.samples);
    let (directions, _) = (s.assign)(&samples, c.width, c.height, k);
    let mut patch = descriptor::Case {
        picture: Picture {
            samples,
            ..here.picture
        },
        x: 0.0,
        y: 0.0,
        scale: 0.0,
        angle: 0.0,
    };
    for o in directions {
        let at = (s.inputs)(&o, c.octave as i32).map(f32::from_bits);
        [patch.x, patch.y, patch.scale, patch.angle] = at;
        match descriptor::fault(&patch) {
            0 => {}
            6 => return Err(Reason::PatchSample),
            n => panic!("a direction that was found is refused with {n}: {o:x?}"),
        }
        let (values, samples) = (s.describe)(&patch.picture.samples, c.width, c.height, at);
        let made = record::Case {
            keypoint: k.to_vec(),
            oriented: o.to_vec(),
            values: values.map(f32::from_bits).to_vec(),
            samples,
        };
        assert_eq!(record::reason(&made), None, "{made:x?}");
        let words = record::made(&made);
        all.push(Entry {
            keypoint,
            at,
            words,
        });
    }
    Ok(())
}

/// What the stages make of a case that is not refused before. Or why it is refused: the directions of a keypoint with a bad cell in its
/// window are not asked for, nor is the descriptor of a direction with a bad cell in its patch.
pub fn made(c: &Case, s: &Stages) -> Result<Made, Reason> {
    let stack = c.stack();
    let mut all = Made::default();
    for layer in 1..=c.settings.layers {
        let found = (s.find)(&stack, layer, c.octave, &c.settings);
        all.searched.resize(all.searched.len() + found.len(), layer);
        all.keypoints.extend(found);
    }
    for (place, k) in all.keypoints.iter().enumerate() {
        made_of(c, s, place, k, &mut all.records)?;
    }
    Ok(all)
}

/// A record's fields by their numbers, each with the place of its word: the blank bit is field 6, where there is one, and the zero bits
/// behind it are field 7.
fn fields(edition: u32) -> impl Iterator<Item = (u32, usize)> {
    let blank = (edition != 1).then_some((6, WORDS - 1));
    let front = (1..=5).zip(0..5);
    front.chain(blank).chain((8..=140).zip(5..WORDS - 1))
}

/// What comes of the sheet of a case that is not refused before it.
pub fn of_sheet(c: &Case, made: &Made) -> Outcome {
    let (head, stated) = match sheet::reading(&c.sheet) {
        Err(reason) => return Outcome::Refused(Reason::Sheet(reason)),
        Ok(read) => read,
    };
    if stated.iter().any(|r| r[2] != c.octave) {
        return Outcome::Refused(Reason::OtherOctave);
    }
    let header = [
        (2, head.width, c.base.0),
        (3, head.height, c.base.1),
        (4, head.layers, c.settings.layers),
    ];
    if let Some((field, ..)) = header.iter().find(|(_, stated, named)| stated != named) {
        return Outcome::Header(*field);
    }
    for (k, stated) in stated.iter().enumerate() {
        let Some(entry) = made.records.get(k) else {
            return Outcome::LeftOver(k);
        };
        let differs = |&(_, word): &(u32, usize)| stated[word] != entry.words[word];
        if let Some((field, _)) = fields(head.edition).find(differs) {
            return Outcome::Record(k, field);
        }
    }
    if stated.len() < made.records.len() {
        return Outcome::Missing(stated.len());
    }
    Outcome::Accepted
}

/// What comes of any case.
pub fn outcome(c: &Case, s: &Stages) -> Outcome {
    if let Some(reason) = form(c) {
        return Outcome::Refused(reason);
    }
    match made(c, s) {
        Err(reason) => Outcome::Refused(reason),
        Ok(made) => of_sheet(c, &made),
    }
}
