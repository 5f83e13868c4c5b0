//! `thin` by list, beside its second rendering, which has vectors and a sort; both test the whole list first.

use crate::timing::bests;
use bargeclover::entries;
use cases::Rng;
use cases::thinning::{self, Case, Places, Responses};

const WIDTH: usize = 8192;
const HEIGHT: usize = 6000;
const DEPTH: u32 = 12;
/// Keypoints of a list, and the rounds that it is timed in.
const LISTS: [(usize, usize); 3] = [(10_000, 25), (100_000, 9), (1_000_000, 3)];
const QUOTAS: [usize; 2] = [2000, 20_000];
const KINDS: [(&str, Places, Responses); 4] = [
    ("spread", Places::Spread, Responses::Usual),
    ("crowded", Places::Crowded, Responses::Usual),
    ("spread, equal responses", Places::Spread, Responses::Equal),
    (
        "crowded, equal responses",
        Places::Crowded,
        Responses::Equal,
    ),
];

fn line(c: &Case, kind: &str, rounds: usize) {
    let many = c.keypoints().len();
    let mut out = vec![0; c.quota.min(many)];
    let mut ours = || {
        let (number, count) =
            entries::thin(c.width, c.height, &c.words, c.quota, c.depth, &mut out);
        assert_eq!(number, 0);
        count as u64
    };
    let mut theirs = || {
        assert_eq!(thinning::reason(c), None);
        thinning::kept(c).len() as u64
    };
    let kept = ours();
    assert_eq!(kept, theirs());
    let [a, b] = bests(rounds, [&mut ours, &mut theirs]);
    println!(
        "| {many} | {} | {kind} | {kept} | {:.2} | {:.2} | {:.2} |",
        c.quota,
        a / 1e6,
        b / 1e6,
        a / b
    );
}

pub fn print() {
    println!("### Thinning\n");
    println!(
        "`thin`, a frame of {WIDTH} x {HEIGHT}, depth {DEPTH}, room for the lesser of quota and list; milliseconds, the best of some rounds.\n"
    );
    println!("| keypoints | quota | list | kept | library | plain Rust | ratio |");
    println!("|---|---|---|---|---|---|---|");
    for (many, rounds) in LISTS {
        for (kind, at, strong) in KINDS {
            let r = &mut Rng::new(9);
            let words = thinning::list(r, many, [WIDTH, HEIGHT], at, strong);
            let mut c = Case {
                width: WIDTH,
                height: HEIGHT,
                words,
                quota: 0,
                depth: DEPTH,
            };
            for quota in QUOTAS {
                c.quota = quota;
                line(&c, kind, rounds);
            }
        }
    }
    println!();
}
