//! The list of `run_detect`, little-endian: the mark 0x42434C31 and the number of cases as u32; then each case: as u32 width,
//! height, planes, layer, octave, layers; as f64 contrast, edge, sigma; as u32 the words lent, the number, the count; the planes ×
//! height × width samples as f32; as u32 the words lent once more, and all of them as they stand after the call, each 0xA5A5A5A5
//! before it. A case whose samples are not as many as its shape says can't be told in this form, so number 3 is not in the list.

use crate::list::{List, put};
use bargeclover::Settings;
use cases::detection::{self, Case, Kind, accepted, damage};
use cases::fate::{Fate, fates};
use cases::{Rng, table};
use std::path::Path;

const MARK: u32 = 0x4243_4c31;
const MOST_SAMPLES: usize = 65_536;
const MOST_ROOM: usize = 4_096;
/// Of each fate of a candidate, each kind of stack and each number, at least so many cases.
const EACH: usize = 12;

/// The number, the count and the lent words afterwards.
fn answer(c: &Case, room: usize) -> (u32, usize, Vec<u32>) {
    detection::expected(c, room, |c| {
        oracle::find_extrema(&c.stack(), c.layer, c.octave, &c.settings)
    })
}

fn case(to: &mut Vec<u8>, c: &Case, room: usize) {
    let (number, count, out) = answer(c, room);
    let s = &c.settings;
    put(to, [c.width, c.height, c.planes, c.layer].map(|n| n as u32));
    put(to, [c.octave, s.layers as u32]);
    for x in [s.contrast, s.edge, s.sigma] {
        to.extend(x.to_bits().to_le_bytes());
    }
    put(to, [room as u32, number, count as u32]);
    put(to, c.samples.iter().map(|x| x.to_bits()));
    put(to, [room as u32]);
    put(to, out);
}

/// What a case is in the list for.
fn reasons(c: &Case, kind: Kind, room: usize) -> Vec<String> {
    let number = answer(c, room).0;
    let mut all = vec![format!("number {number}")];
    if table::detection(c) == 0 {
        all.push(format!("stack {kind:?}"));
        all.extend(
            fates(&c.stack(), c.layer, &c.settings)
                .iter()
                .map(|f| format!("candidate {f:?}")),
        );
    }
    all
}

/// Whether the form can tell the case: it has as many samples as its shape says, and its numbers are u32s.
fn tellable(c: &Case) -> bool {
    let numbers = [c.width, c.height, c.planes, c.layer, c.settings.layers];
    let need = c.width as u128 * c.height as u128 * c.planes as u128;
    numbers.iter().all(|&n| n <= u32::MAX as usize)
        && need == c.samples.len() as u128
        && c.samples.len() <= MOST_SAMPLES
}

fn next(r: &mut Rng) -> (Case, Kind, usize) {
    let kind = r.pick(&Kind::ALL);
    let mut c = accepted(r, kind);
    if r.one_in(4) {
        damage(r, &mut c);
        // A shape that was damaged gets its samples, as far as they go in.
        let need = c.width.saturating_mul(c.height).saturating_mul(c.planes);
        if need <= MOST_SAMPLES {
            c.samples.resize(need, 1.0);
        }
    }
    let need = if table::detection(&c) == 0 {
        oracle::find_extrema(&c.stack(), c.layer, c.octave, &c.settings).len() * 10
    } else {
        0
    };
    let room = match r.below(6) {
        0 => need.saturating_sub(r.from_to(1, 10)),
        1 => need / 2,
        2 => need,
        _ => need + r.below(12),
    };
    (c, kind, room)
}

/// The marked examples of detection (rules E6 to E9): three planes of 10, 11 wide and 10 wide; and of zeros with one cell set.
fn marked() -> Vec<Case> {
    let planes = |width: usize, every: f32, middle: f32| {
        let mut samples = vec![every; 3 * width * 11];
        samples[11 * width + 5 * width + 5] = middle;
        Case {
            samples,
            width,
            height: 11,
            planes: 3,
            layer: 1,
            octave: 0,
            settings: Settings {
                layers: 1,
                ..Settings::default()
            },
        }
    };
    let spikes = [100.0, -100.0, 5.0, 10.0, 11.0, -11.0];
    let mut all = vec![planes(11, 10.0, 10.0), planes(10, 0.0, 100.0)];
    all.extend(spikes.map(|v| planes(11, 0.0, v)));
    all
}

pub fn write(folder: &Path, seed: u64) {
    let mut r = Rng::new(seed);
    let wanted = Fate::ALL
        .iter()
        .map(|f| format!("candidate {f:?}"))
        .chain(Kind::ALL.iter().map(|k| format!("stack {k:?}")))
        .chain([0, 1, 2, 4, 6, 7].iter().map(|n| format!("number {n}")));
    let mut list = List::new(wanted.collect(), EACH);
    for c in marked() {
        case(&mut list.bytes, &c, 12);
        list.cases += 1;
    }
    while !list.whole() {
        let (c, kind, room) = next(&mut r);
        if !tellable(&c) || c.samples.len() > 2_500 || room > MOST_ROOM {
            continue;
        }
        if list.takes(reasons(&c, kind, room)) {
            case(&mut list.bytes, &c, room);
            list.cases += 1;
        }
    }
    let cases = list.cases;
    let note = format!(
        "`cases.bin`: {cases} stacks, the marked examples (rules E6 to E9) first, with the answers of the published Rust (kornia-rs at\n\
         285a3cc7f0), and of the table of refusals (rule A2); `host/record/src/detection.rs` has its form. Made in `host/` by\n\n    \
         cargo run --release -p record -- detection {seed}\n\n\
         The cases drawn at random, by number, by kind of stack, and their candidates by what becomes of them:\n\n"
    );
    list.write(folder, MARK, &note);
}
