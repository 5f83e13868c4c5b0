//! From a frame to its oriented keypoints, in the order of a sheet: octave by octave, in each by the layer searched, in each as
//! detection lists them, and the peaks of each. A keypoint may settle in another layer than the one searched; that layer's plane is
//! its picture. A quota thins the keypoints of all octaves before any is given its directions.

use crate::Trouble;
use crate::cover::{Cover, Tally, Thinned};
use crate::pgm::Frame;
use crate::progress::Progress;
use crate::pyramid::{Octave, Pyramid};
use bargeclover::{
    Keypoint, Oriented, Refusal, Settings, Sheet, Stack, assign_orientations, find_extrema,
    write_sheet,
};

/// What a frame is searched with.
#[derive(Clone, Copy, Debug, Default)]
pub struct Wanted {
    pub settings: Settings,
    /// Whether the frame is doubled first.
    pub double: bool,
    /// Where only so many keypoints are kept.
    pub cover: Option<Cover>,
    /// Nothing is looked for: the planes are made for points that are given.
    pub unsearched: bool,
}

/// The edition that sheets have unless another is asked for.
pub const EDITION: u32 = 2;

/// What detection answers to these settings, on a stack too small to find anything in.
fn tried(settings: Settings) -> Result<(), Refusal> {
    let planes = settings.layers.clamp(1, 15) + 2;
    let samples = vec![0.0; planes];
    let stack = Stack {
        samples: &samples,
        width: 1,
        height: 1,
        planes,
    };
    find_extrema(&stack, 1, 0, &settings).map(|_| ())
}

/// Asks the library whether it will take the settings and the shape before planes are made, and says which setting it refuses.
pub fn accepted(frame: &Frame, wanted: &Wanted) -> Result<(), Trouble> {
    let (s, d) = (wanted.settings, Settings::default());
    let each = [
        (
            Settings {
                layers: s.layers,
                ..d
            },
            "give --layers from 1 to 15",
        ),
        (
            Settings {
                contrast: s.contrast,
                ..d
            },
            "give --contrast from 0 to 1",
        ),
        (Settings { edge: s.edge, ..d }, "give --edge from 1 to 1000"),
        (
            Settings {
                sigma: s.sigma,
                ..d
            },
            "give --sigma from 0.5 to 16",
        ),
        (s, "change the settings"),
    ];
    for (settings, change) in each {
        tried(settings).map_err(|r| Trouble::refused(r, change))?;
    }
    if let Some(cover) = wanted.cover {
        cover.accepted()?;
    }
    let (width, height) = size(frame, wanted.double);
    let empty = Sheet {
        edition: EDITION,
        width,
        height,
        layers: s.layers,
        records: Vec::new(),
    };
    let change = if wanted.double {
        "leave out --double, which makes the frame twice as wide and high, or cut the frame"
    } else {
        "cut the frame or halve it"
    };
    write_sheet(&empty).map_err(|r| Trouble::refused(r, change))?;
    Ok(())
}

/// Width and height of octave 0.
pub fn size(frame: &Frame, double: bool) -> (usize, usize) {
    if double {
        (2 * frame.width, 2 * frame.height)
    } else {
        (frame.width, frame.height)
    }
}

/// The keypoints of an octave, by the layer searched, and in each layer as detection lists them.
pub fn keypoints(octave: &Octave, settings: &Settings) -> Result<Vec<Keypoint>, Refusal> {
    let mut all = Vec::new();
    for layer in 1..=settings.layers {
        all.extend(find_extrema(
            &octave.stack(),
            layer,
            octave.number,
            settings,
        )?);
    }
    Ok(all)
}

/// A refusal of what the library itself gave, or of planes made here: it can't be the caller's fault.
pub fn inside(r: Refusal) -> Trouble {
    Trouble::refused(r, "this is a fault of the tool, please report it")
}

/// Hands over each octave of a frame, and what to call it.
pub fn octaves(
    frame: &Frame,
    wanted: &Wanted,
    progress: &mut Progress,
    mut take: impl FnMut(Octave, &str, &mut Progress) -> Result<(), Trouble>,
) -> Result<(), Trouble> {
    accepted(frame, wanted)?;
    let s = &wanted.settings;
    progress.say(|| "octave 0: making the planes".into());
    let pyramid = Pyramid::new(&frame.samples, frame.width, frame.height, s, wanted.double);
    let many = pyramid.octaves();
    for octave in pyramid {
        let at = format!("octave {} of {many}", octave.number + 1);
        take(octave, &at, progress)?;
        progress.say(|| format!("{at} done: making the next planes"));
    }
    Ok(())
}

/// The same, each with its keypoints.
fn search(
    frame: &Frame,
    wanted: &Wanted,
    progress: &mut Progress,
    mut take: impl FnMut(Octave, Vec<Keypoint>, &mut Progress) -> Result<(), Trouble>,
) -> Result<(), Trouble> {
    octaves(frame, wanted, progress, |octave, at, progress| {
        let list = if wanted.unsearched {
            Vec::new()
        } else {
            progress.say(|| format!("{at}: looking for extrema"));
            keypoints(&octave, &wanted.settings).map_err(inside)?
        };
        take(octave, list, progress)
    })
}

/// The keypoints of all octaves, thinned, and the octaves' Gaussian planes. None is given its directions yet.
pub fn thinned(
    frame: &Frame,
    wanted: &Wanted,
    cover: &Cover,
    progress: &mut Progress,
) -> Result<(Thinned, Vec<Octave>), Trouble> {
    let (mut all, mut octaves) = (Vec::new(), Vec::new());
    search(frame, wanted, progress, |mut octave, list, _| {
        // nothing reads them again, and they are most of an octave
        octave.differences = Vec::new();
        octaves.push(octave);
        all.extend(list);
        Ok(())
    })?;
    let size = size(frame, wanted.double);
    Ok((cover.thinned(size, all).map_err(inside)?, octaves))
}

/// Hands over the directions of a keypoint.
pub fn orient(
    octave: &Octave,
    keypoint: &Keypoint,
    take: &mut impl FnMut(&Octave, &Keypoint, &Oriented) -> Result<(), Trouble>,
) -> Result<(), Trouble> {
    let picture = octave.picture(keypoint.layer as usize);
    let directions = assign_orientations(&picture, keypoint).map_err(inside)?;
    for oriented in &directions.list {
        take(octave, keypoint, oriented)?;
    }
    Ok(())
}

/// What was found of a frame.
#[derive(Clone, Copy, Debug)]
pub struct Found {
    /// The keypoints, or those that were kept, of which each may have several directions or none.
    pub keypoints: usize,
    /// What a quota left.
    pub tally: Option<Tally>,
}

/// Hands over each oriented keypoint of a frame, with the keypoint that it came from and the octave's planes: the Gaussian ones, and
/// without a quota the differences too.
pub fn each(
    frame: &Frame,
    wanted: &Wanted,
    progress: &mut Progress,
    take: impl FnMut(&Octave, &Keypoint, &Oriented) -> Result<(), Trouble>,
) -> Result<Found, Trouble> {
    each_with_planes(frame, wanted, progress, take, |_| {})
}

/// The same, and gives away each octave's Gaussian planes when its keypoints are handed over.
pub fn each_with_planes(
    frame: &Frame,
    wanted: &Wanted,
    progress: &mut Progress,
    mut take: impl FnMut(&Octave, &Keypoint, &Oriented) -> Result<(), Trouble>,
    mut leave: impl FnMut(Octave),
) -> Result<Found, Trouble> {
    if let Some(cover) = &wanted.cover {
        let (thinned, octaves) = thinned(frame, wanted, cover, progress)?;
        let many = thinned.kept.len();
        for (k, &p) in thinned.kept.iter().enumerate() {
            progress.say(|| format!("keypoint {} of {many} that are kept", k + 1));
            let keypoint = &thinned.keypoints[p];
            orient(&octaves[octave_of(keypoint)], keypoint, &mut take)?;
        }
        octaves.into_iter().for_each(leave);
        return Ok(Found {
            keypoints: many,
            tally: Some(thinned.tally()),
        });
    }
    let mut found = 0;
    search(frame, wanted, progress, |mut octave, list, progress| {
        for (k, keypoint) in list.iter().enumerate() {
            let (at, many) = (octave.number + 1, list.len());
            progress.say(|| format!("octave {at}: keypoint {} of {many}", k + 1));
            orient(&octave, keypoint, &mut take)?;
        }
        found += list.len();
        octave.differences = Vec::new();
        leave(octave);
        Ok(())
    })?;
    Ok(Found {
        keypoints: found,
        tally: None,
    })
}

/// The octave in which a keypoint was found.
pub fn octave_of(keypoint: &Keypoint) -> usize {
    (keypoint.octave & 255) as usize
}
