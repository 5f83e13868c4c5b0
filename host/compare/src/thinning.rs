//! Even cover, against thinning rendered a second time.

use crate::report::Report;
use bargeclover::entries;
use cases::Rng;
use cases::detection::BEFORE;
use cases::thinning::{self, Case, HELD, Places, Reason, Responses, accepted, damage};

/// How a list as a whole is treated.
const WAYS: [&str; 6] = [
    "thinning: within the quota",
    "thinning: the strongest, at a quota below 4",
    "thinning: the strongest, at depth 0",
    "thinning: cut",
    "thinning: the strongest of more than are held",
    "thinning: cut, of more than are held",
];

fn way(c: &Case) -> &'static str {
    let many = c.keypoints().len();
    let strongest = c.quota < 4 || c.depth == 0;
    match (many <= c.quota, strongest, many > HELD) {
        (true, _, _) => WAYS[0],
        (_, true, true) => WAYS[4],
        (_, true, _) if c.quota < 4 => WAYS[1],
        (_, true, _) => WAYS[2],
        (_, _, false) => WAYS[3],
        _ => WAYS[5],
    }
}

fn refused(reason: Reason) -> String {
    format!("thin refused with {}: {reason:?}", reason.number())
}

fn places(at: Places) -> String {
    format!("list: {at:?}")
}

fn responses(strong: Responses) -> String {
    format!("responses: {strong:?}")
}

fn told(c: &Case, room: usize) -> String {
    let many = c.keypoints().len();
    if many > 100 {
        let Case { width, height, .. } = c;
        let (quota, depth) = (c.quota, c.depth);
        return format!(
            "{width} x {height}, {many} keypoints, quota {quota}, depth {depth}, room {room}"
        );
    }
    format!("{c:x?}, room {room}")
}

fn hold(r: &mut Report, c: &Case, room: usize) {
    let (number, count, theirs) = thinning::expected(c, room);
    let mut ours = vec![BEFORE; room];
    let answer = entries::thin(c.width, c.height, &c.words, c.quota, c.depth, &mut ours);
    if r.same("thin", &answer, &(number, count), || told(c, room))
        && let Some(k) = (0..room).find(|&k| ours[k] != theirs[k])
    {
        let what = format!("word {k} of thin");
        r.same(&what, &ours[k], &theirs[k], || told(c, room));
    }
    r.tried(format!("thin answered {number}"));
    match thinning::reason(c) {
        Some(reason) => r.tried(refused(reason)),
        None => {
            r.tried(way(c));
            r.add("keypoints of thinned lists", c.keypoints().len() as u64);
            r.add("keypoints kept", if number == 0 { count as u64 } else { 0 });
        }
    }
}

/// `many` lists, with room or too little, and half as many damaged ones.
pub fn lists(rng: &mut Rng, many: u64, r: &mut Report) {
    for k in 0..many {
        let at = rng.pick(&Places::ALL);
        let strong = rng.pick(&Responses::ALL);
        let mut c = accepted(rng, at, strong);
        let need = thinning::kept(&c).len();
        let room = thinning::room(rng, &c, need);
        hold(r, &c, room);
        r.tried(places(at));
        r.tried(responses(strong));
        if k % 2 == 0 {
            damage(rng, &mut c);
            if rng.one_in(3) {
                damage(rng, &mut c);
            }
            let room = rng.below(c.keypoints().len() + 2);
            hold(r, &c, room);
        }
    }
}

/// What a run of some length has to have met, and how often at least: each number and each reason in one list of 200.
pub fn due(many: u64) -> Vec<(String, u64)> {
    let often = many / 200;
    let answers = [0, 1, 5, 7].map(|n| (format!("thin answered {n}"), often));
    let reasons = Reason::ALL.map(|reason| (refused(reason), often));
    let ways = WAYS.map(|w| (w.to_string(), 1));
    let kinds = Places::ALL.map(|at| (places(at), often));
    let strengths = Responses::ALL.map(|s| (responses(s), often));
    let all = answers.into_iter().chain(reasons).chain(ways);
    all.chain(kinds).chain(strengths).collect()
}
