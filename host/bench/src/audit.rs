//! `check_sheet` on an octave, beside the making of its sheet by the entries, stage after stage: the checker makes the same records.

use crate::frame::{SEED, SIDES, octave};
use crate::timing::bests;
use bargeclover::{Aim, Oriented, Picture, Record, Settings, Stack, entries};
use cases::audit::Stages;
use tool::pyramid::Octave;

const ROUNDS: usize = 15;
const KEYPOINT: usize = 10;

/// The stages of the library, for makers of cases that are handed the Rust's elsewhere.
pub const LIBRARY: Stages = Stages {
    find: |stack, layer, octave, s| {
        let found = bargeclover::find_extrema(stack, layer, octave, s).unwrap();
        found.iter().map(|k| k.to_words()).collect()
    },
    assign: |samples, width, height, keypoint| {
        let picture = Picture {
            samples,
            width,
            height,
        };
        let mut words = [0; Oriented::MOST * Oriented::WORDS];
        let (_, count, samples) = entries::assign_orientations(&picture, keypoint, &mut words);
        (words.as_chunks().0[..count].to_vec(), samples)
    },
    inputs: |oriented, octave| {
        let mut out = [0; 4];
        entries::descriptor_inputs(oriented, octave, &mut out);
        out
    },
    describe: |samples, width, height, [x, y, scale, angle]| {
        let picture = Picture {
            samples,
            width,
            height,
        };
        let mut out = [0.0; 128];
        let aim = Aim { x, y, scale, angle };
        let (_, _, samples) = entries::compute_descriptor(&picture, &aim, &mut out);
        (out.map(f32::to_bits), samples)
    },
};

/// Room that is kept from run to run.
struct Room {
    found: Vec<u32>,
    words: Vec<u32>,
    bytes: Vec<u8>,
}

impl Room {
    fn new() -> Room {
        Room {
            found: vec![0; KEYPOINT << 16],
            words: vec![0; Record::WORDS << 16],
            bytes: vec![0; 8 + (154 << 16)],
        }
    }

    /// The sheet of an octave, by the entries: its bytes.
    fn make(&mut self, octave: &Octave, s: &Settings) -> usize {
        let stack = octave.stack();
        let mut directions = [0; Oriented::MOST * Oriented::WORDS];
        let (mut inputs, mut values) = ([0; 4], [0.0; 128]);
        let mut records = self.words.chunks_exact_mut(Record::WORDS);
        let mut many = 0;
        for layer in 1..=s.layers {
            let (_, found) =
                entries::find_extrema(&stack, layer, octave.number, s, &mut self.found);
            for k in self.found.chunks_exact(KEYPOINT).take(found) {
                let picture = octave.picture(k[5] as usize);
                let (_, count, _) = entries::assign_orientations(&picture, k, &mut directions);
                for o in directions.chunks_exact(Oriented::WORDS).take(count) {
                    entries::descriptor_inputs(o, octave.number as i32, &mut inputs);
                    let [x, y, scale, angle] = inputs.map(f32::from_bits);
                    let aim = Aim { x, y, scale, angle };
                    let (_, _, samples) = entries::compute_descriptor(&picture, &aim, &mut values);
                    entries::make_record(k, o, &values, samples, records.next().unwrap());
                    many += 1;
                }
            }
        }
        let words = &self.words[..Record::WORDS * many];
        let (width, height) = (octave.width, octave.height);
        entries::write_sheet(2, width, height, s.layers, words, &mut self.bytes).1
    }
}

fn check(stack: &Stack, octave: &Octave, s: &Settings, sheet: &[u8]) -> u64 {
    let base = (octave.width, octave.height);
    let told = entries::check_sheet(stack, &octave.gaussian, octave.number, s, base, sheet);
    assert_eq!(told, (0, 0, 0, 0));
    u64::from(told.0)
}

fn line(octave: &Octave, s: &Settings) {
    let stack = octave.stack();
    let mut room = Room::new();
    let bytes = room.make(octave, s);
    let sheet = room.bytes[..bytes].to_vec();
    let mut making = || room.make(octave, s) as u64;
    let mut checking = || check(&stack, octave, s, &sheet);
    let [made, checked] = bests(ROUNDS, [&mut making, &mut checking]);
    println!(
        "| {} x {} | {} | {} | {:.2} | {:.2} | {:.2} |",
        octave.width,
        octave.height,
        s.contrast,
        (bytes - 8) / 154,
        made / 1e6,
        checked / 1e6,
        checked / made
    );
}

pub fn print() {
    println!("### Checking a sheet\n");
    println!(
        "`check_sheet` on octave 0 of a coast, seed {SEED}, all layers, and the making of the same sheet by the entries, detection to `write_sheet`; milliseconds, the best of {ROUNDS} rounds.\n"
    );
    println!("| coast | contrast | records | making | checking | ratio |");
    println!("|---|---|---|---|---|---|");
    for side in SIDES {
        // the usual contrast, and one at which most of the time goes to the records
        for contrast in [0.04, 0.002] {
            let s = Settings {
                contrast,
                ..Settings::default()
            };
            line(&octave(side, &s), &s);
        }
    }
    println!();
}
