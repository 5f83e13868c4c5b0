//! The descriptor and its inputs: the library's answers against the published Rust's, and against the table.

use crate::report::Report;
use bargeclover::{Aim, Picture, entries};
use cases::descriptor::{self, VALUES};
use cases::{Rng, detection::BEFORE};

fn hold_descriptor(r: &mut Report, c: &descriptor::Case, room: usize) {
    let right = descriptor::expected(c, room, |p, at| {
        let all = oracle::compute_descriptor(&p.samples, p.width, p.height, at);
        r.tried(match (all.0.iter().all(|&v| v == 0), all.1) {
            (true, 0) => "descriptor of nothing",
            (true, _) => "descriptor of a flat patch",
            _ => "descriptor with values",
        });
        all
    });
    let p = &c.picture;
    let lent = Picture {
        samples: &p.samples,
        width: p.width,
        height: p.height,
    };
    let aim = Aim {
        x: c.x,
        y: c.y,
        scale: c.scale,
        angle: c.angle,
    };
    let mut ours = vec![f32::from_bits(BEFORE); room];
    let answer = entries::compute_descriptor(&lent, &aim, &mut ours);
    let about = || format!("{c:?}, room {room}");
    let numbers = (right.number, right.count, right.samples);
    if r.same("compute_descriptor", &answer, &numbers, about) {
        let ours: Vec<u32> = ours.into_iter().map(f32::to_bits).collect();
        r.same("values of compute_descriptor", &ours, &right.out, about);
    }
    r.tried(format!("compute_descriptor answered {}", right.number));
}

/// `many` descriptors, some without 128 places, and half as many damaged ones.
pub fn descriptors(rng: &mut Rng, many: u64, r: &mut Report) {
    for k in 0..many {
        let mut c = descriptor::accepted(rng);
        let room = if rng.one_in(16) {
            rng.pick(&[0, 127, 129, 256])
        } else {
            VALUES
        };
        hold_descriptor(r, &c, room);
        if k % 2 == 0 {
            descriptor::damage(rng, &mut c);
            hold_descriptor(r, &c, VALUES);
        }
    }
}

fn hold_inputs(r: &mut Report, oriented: &[u32], octave: i32, room: usize) {
    let mut theirs = vec![BEFORE; room];
    let expected = match descriptor::inputs_fault(oriented, octave) {
        0 if room == 4 => {
            let words = oriented.try_into().unwrap();
            theirs.copy_from_slice(&oracle::descriptor_inputs(words, octave));
            0
        }
        0 => 7,
        fault => fault,
    };
    let mut ours = vec![BEFORE; room];
    let answer = entries::descriptor_inputs(oriented, octave, &mut ours);
    let about = || format!("{oriented:x?}, octave {octave}, room {room}");
    if r.same("descriptor_inputs", &answer, &expected, about) {
        r.same("words of descriptor_inputs", &ours, &theirs, about);
    }
    r.tried(format!("descriptor_inputs answered {expected}"));
}

/// `many` oriented keypoints: likely ones, and ones with any bits in a word.
pub fn inputs(rng: &mut Rng, many: u64, r: &mut Report) {
    for _ in 0..many {
        let octave = rng.below(16) as i32;
        let angle = match rng.below(4) {
            0 => rng.pick(&[0.0, 360.0, 180.0, -0.0, f32::EPSILON, 360.0f32.next_down()]),
            _ => (360.0 * rng.unit()) as f32,
        };
        let mut words = vec![
            ((8192.0 * rng.unit()) as f32).to_bits(),
            ((8192.0 * rng.unit()) as f32).to_bits(),
            ((128.0 * rng.unit()) as f32).to_bits(),
            (rng.unit() as f32).to_bits(),
            rng.word() as u32,
            angle.to_bits(),
        ];
        if rng.one_in(2) {
            let at = rng.below(6);
            words[at] = rng.word() as u32;
        }
        if rng.one_in(32) {
            words.pop();
        } else if rng.one_in(32) {
            words.push(0);
        }
        let octave = if rng.one_in(16) {
            rng.pick(&[-1, 16, 31, 32, i32::MIN, i32::MAX])
        } else {
            octave
        };
        let room = if rng.one_in(16) {
            rng.pick(&[0, 3, 5])
        } else {
            4
        };
        hold_inputs(r, &words, octave, room);
    }
}
