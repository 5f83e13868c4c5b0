//! The record of a keypoint, a direction and a descriptor, against its second rendering.

use crate::report::Report;
use bargeclover::entries;
use cases::Rng;
use cases::detection::BEFORE;
use cases::record::{self, Case, Reason, WORDS, accepted, damage};

/// What the accepted ones are: blank, of a level patch that was read, or with values.
const KINDS: [&str; 3] = [
    "record made: blank",
    "record made: read, and level",
    "record made: with values",
];

fn kind(words: &[u32]) -> &'static str {
    match (words[138], words[10..138] == [0; 128]) {
        (1, _) => KINDS[0],
        (_, true) => KINDS[1],
        _ => KINDS[2],
    }
}

fn refused(reason: Reason) -> String {
    format!("make_record refused with 5: {reason:?}")
}

fn hold(r: &mut Report, c: &Case, room: usize) {
    let (number, theirs) = record::expected(c, BEFORE, room);
    let mut ours = vec![BEFORE; room];
    let answer = entries::make_record(&c.keypoint, &c.oriented, &c.values, c.samples, &mut ours);
    let about = || format!("{c:x?}, room {room}");
    if r.same("make_record", &answer, &number, about) {
        r.same("words of make_record", &ours, &theirs, about);
    }
    r.tried(format!("make_record answered {number}"));
    match record::reason(c) {
        Some(reason) => r.tried(refused(reason)),
        None => r.tried(kind(&record::made(c))),
    }
}

/// `many` records, with room or another, and as many damaged ones.
pub fn records(rng: &mut Rng, many: u64, r: &mut Report) {
    for _ in 0..many {
        let mut c = accepted(rng);
        let room = rng.pick(&[WORDS, WORDS, WORDS, WORDS - 1, WORDS + 1, 0, 138 + 139]);
        hold(r, &c, room);
        damage(rng, &mut c);
        if rng.one_in(3) {
            damage(rng, &mut c);
        }
        let room = rng.pick(&[WORDS, WORDS, WORDS - 1, 0]);
        hold(r, &c, room);
    }
}

/// What a run of some length has to have met, and how often at least: each number, reason and kind once in 1,000 records.
pub fn due(many: u64) -> Vec<(String, u64)> {
    let mut all = Vec::new();
    all.extend([0, 5, 7].map(|n| format!("make_record answered {n}")));
    all.extend(Reason::ALL.map(refused));
    all.extend(KINDS.map(str::to_string));
    all.into_iter().map(|what| (what, many / 1000)).collect()
}
