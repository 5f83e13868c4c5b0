//! Orientation: the library's answers against the published Rust's, and against the table.

use crate::report::Report;
use bargeclover::{Picture, entries};
use cases::detection::BEFORE;
use cases::{Rng, orientation, picture};

fn lent(p: &picture::Picture) -> Picture<'_> {
    Picture {
        samples: &p.samples,
        width: p.width,
        height: p.height,
    }
}

fn hold_orientation(r: &mut Report, c: &orientation::Case, room: usize) {
    let right = orientation::expected(c, room, |p, keypoint| {
        let all = oracle::assign_orientations(&p.samples, p.width, p.height, keypoint);
        r.tried(format!("keypoint with {} peaks", all.0.len()));
        all
    });
    let mut ours = vec![BEFORE; room];
    let answer = entries::assign_orientations(&lent(&c.picture), &c.keypoint, &mut ours);
    let about = || format!("{c:?}, room {room}");
    let numbers = (right.number, right.count, right.samples);
    if r.same("assign_orientations", &answer, &numbers, about) {
        r.same("words of assign_orientations", &ours, &right.out, about);
    }
    r.tried(format!("assign_orientations answered {}", right.number));
}

/// `many` keypoints, with room or too little, and half as many damaged ones.
pub fn keypoints(rng: &mut Rng, many: u64, r: &mut Report) {
    for k in 0..many {
        let mut c = orientation::accepted(rng);
        let room = rng.pick(&[6 * 18, 6 * 18, 6 * 18, 0, 5, 6, 13]);
        hold_orientation(r, &c, room);
        if k % 2 == 0 {
            orientation::damage(rng, &mut c);
            hold_orientation(r, &c, 6 * 18);
        }
    }
}
