//! Sheets held to what the rules give of their frame: those that `extract` makes are accepted, and of those that are bent the first
//! difference is told where it is, seen by comparing with what `extract` makes.

use bargeclover::{Blank, Record, Settings, Sheet, read_sheet, write_sheet};
use cases::{Rng, sheet};
use tool::audit::{Checked, check};
use tool::difference::Difference;
use tool::extract::{Order, extract};
use tool::find::Wanted;
use tool::pgm::{self, Frame};
use tool::progress::Progress;
use tool::{draw, pyramid, svg, table::Mark};

fn coast(width: usize, height: usize, seed: u64) -> Frame {
    pgm::read(&coast::frame(width, height, seed).to_pgm()).unwrap()
}

fn noise(rng: &mut Rng, width: usize, height: usize) -> Frame {
    Frame {
        width,
        height,
        samples: (0..width * height).map(|_| rng.below(256) as f32).collect(),
    }
}

/// The sheet that `extract` makes, by way of its bytes.
fn made(f: &Frame, w: &Wanted, edition: u32) -> Sheet {
    let order = Order {
        edition,
        ..Order::default()
    };
    let made = extract(f, w, &order, &mut Progress::none()).unwrap();
    read_sheet(&write_sheet(&made.sheet).unwrap()).unwrap()
}

fn checked(f: &Frame, w: &Wanted, sheets: &[&Sheet]) -> Checked {
    check(f, w, sheets, &mut Progress::none()).unwrap()
}

fn told(f: &Frame, w: &Wanted, sheet: &Sheet) -> Option<Difference> {
    checked(f, w, &[sheet]).differences.remove(0)
}

fn wanted(rng: &mut Rng) -> Wanted {
    Wanted {
        settings: Settings {
            contrast: rng.pick(&[0.0, 0.02, 0.04]),
            edge: rng.pick(&[5.0, 10.0, 1000.0]),
            sigma: rng.pick(&[1.0, 1.6, 2.5]),
            layers: rng.from_to(1, 4),
        },
        double: rng.one_in(2),
        ..Wanted::default()
    }
}

#[test]
fn what_extract_makes_is_accepted() {
    let mut rng = Rng::new(41);
    let (mut records, mut octaves) = (0, 0);
    for k in 0..60 {
        let (width, height) = (rng.from_to(9, 70), rng.from_to(9, 70));
        let f = match k % 2 {
            0 => coast(width.max(16), height.max(16), k),
            _ => noise(&mut rng, width, height),
        };
        let w = wanted(&mut rng);
        let both = [1, 2].map(|edition| made(&f, &w, edition));
        let said = checked(&f, &w, &[&both[0], &both[1]]);
        assert_eq!(said.differences, [None, None]);
        let sides = pyramid::sides(f.width, f.height, w.double);
        assert_eq!(said.octaves, sides.len());
        records += both[1].records.len();
        octaves += sides.len();
    }
    assert!(records > 300 && octaves > 60, "{records} {octaves}");
}

/// Bends a sheet in its records; it may stay as it was.
fn bend(rng: &mut Rng, sheet: &mut Sheet) {
    let all = &mut sheet.records;
    let many = all.len();
    if many == 0 {
        return;
    }
    let at = rng.below(many);
    match rng.below(8) {
        0 => {
            all.remove(at);
        }
        1 => all.insert(at, all[at]),
        2 => all.swap(at, rng.below(many)),
        3 => all.truncate(at),
        4 => all.push(all[at]),
        5 => all[at].octave = rng.below(16) as u32,
        6 => {
            let record = all.remove(at);
            all.insert(rng.below(many), record);
        }
        _ => bend_record(rng, &mut all[at]),
    }
}

fn bend_record(rng: &mut Rng, r: &mut Record) {
    let near = |v: f32| f32::from_bits(v.to_bits() ^ 1);
    match rng.below(11) {
        0 => r.row ^= 1,
        1 => r.column ^= 1,
        2 => r.layer = 1,
        3 => r.code ^= 1,
        4 => r.x = near(r.x),
        5 => r.y = near(r.y),
        6 => r.size = near(r.size),
        7 => r.response = near(r.response),
        8 => r.angle = near(r.angle),
        9 => {
            r.values = [0; 128];
            r.blank = Blank::Yes;
        }
        _ => r.values[rng.below(128)] ^= 1,
    }
}

/// That what is told of a bent sheet is its first difference.
fn hold(ours: &Sheet, bent: &Sheet, octaves: usize, told: &Option<Difference>) {
    let (a, b) = (&ours.records, &bent.records);
    let same_to = |n: usize| a[..n] == b[..n];
    let of = |all: &[Record], octave| all.iter().filter(|r| r.octave == octave).count();
    match told {
        None => assert_eq!(ours, bent),
        Some(Difference::Header { .. }) => assert_ne!(
            (ours.width, ours.height, ours.layers),
            (bent.width, bent.height, bent.layers)
        ),
        Some(Difference::Order { record, behind, .. }) => {
            assert!(b[..*record].is_sorted_by_key(|r| r.octave));
            assert!(b[*record].octave < *behind && b[*record - 1].octave == *behind);
        }
        Some(Difference::Field { record, mark, .. }) => {
            assert!(same_to(*record) && a[*record] != b[*record]);
            assert_eq!(*mark, Mark::of_record(&b[*record]));
            assert_eq!(a[*record].octave, b[*record].octave);
        }
        Some(Difference::Missing { from, more, mark }) => {
            assert!(same_to(*from));
            assert_eq!(of(a, mark.octave), of(b, mark.octave) + more);
            assert_eq!(
                (mark.x, mark.y, mark.angle),
                (a[*from].x, a[*from].y, a[*from].angle)
            );
        }
        Some(Difference::LeftOver {
            from,
            mark,
            no_octave,
        }) => {
            assert!(same_to(*from));
            assert_eq!(*mark, Mark::of_record(&b[*from]));
            assert!(of(a, mark.octave) < of(b, mark.octave));
            assert_eq!(*no_octave, mark.octave as usize >= octaves);
        }
    }
}

#[test]
fn the_first_difference_is_told() {
    let mut rng = Rng::new(42);
    let f = coast(60, 52, 5);
    let mut kinds = [0; 6];
    for edition in [1, 2] {
        let w = Wanted {
            double: true,
            ..Wanted::default()
        };
        let ours = made(&f, &w, edition);
        let octaves = pyramid::sides(f.width, f.height, true).len();
        assert!(ours.records.len() > 20 && octaves == 3);
        for _ in 0..200 {
            let mut bent = ours.clone();
            for _ in 0..rng.from_to(1, 2) {
                bend(&mut rng, &mut bent);
            }
            if rng.one_in(9) {
                bent.layers += 1;
            }
            let Ok(bytes) = write_sheet(&bent) else {
                continue;
            };
            let bent = read_sheet(&bytes).unwrap();
            let said = told(&f, &w, &bent);
            hold(&ours, &bent, octaves, &said);
            kinds[match &said {
                None => 0,
                Some(Difference::Header { .. }) => 1,
                Some(Difference::Order { .. }) => 2,
                Some(Difference::Field { .. }) => 3,
                Some(Difference::Missing { .. }) => 4,
                Some(Difference::LeftOver { .. }) => 5,
            }] += 1;
            let marks: Vec<Mark> = bent.records.iter().map(Mark::of_record).collect();
            let svg = svg::checked_to_svg(&f, &marks, said.as_ref(), true, 2);
            assert!(svg.contains(&said.as_ref().map_or("as the rules".into(), |d| d.words())));
            draw::checked_to_png(&f, &marks, said.as_ref(), true, 2);
        }
    }
    assert!(kinds.iter().all(|k| *k > 0), "{kinds:?}");
}

/// Sheets whose fields are anything that the rules of the sheet allow, but for cells outside of the frame.
#[test]
fn odd_sheets_differ() {
    let mut rng = Rng::new(43);
    for _ in 0..150 {
        let (width, height) = (rng.from_to(9, 40), rng.from_to(9, 40));
        let mut odd = read_sheet(&sheet::written(&sheet::accepted(&mut rng, 6))).unwrap();
        (odd.width, odd.height) = (width, height);
        for r in &mut odd.records {
            r.row %= height as u32;
            r.column %= width as u32;
        }
        if rng.one_in(2) {
            odd.records.sort_by_key(|r| r.octave);
        }
        let f = noise(&mut rng, width, height);
        let w = Wanted {
            settings: Settings {
                layers: odd.layers,
                ..Settings::default()
            },
            ..Wanted::default()
        };
        let octaves = pyramid::sides(width, height, false).len();
        hold(
            &made(&f, &w, odd.edition),
            &odd,
            octaves,
            &told(&f, &w, &odd),
        );
    }
}
