//! From a frame to oriented keypoints and to a sheet, the tool beside the published Rust on the same planes, word for word: what is
//! found, and points that are given.

use bargeclover::Settings;
use cases::{Rng, thinning};
use tool::cover::Cover;
use tool::extract::{Order, extract};
use tool::find::{self, Wanted};
use tool::fit::Fit;
use tool::pgm::{self, Frame};
use tool::points::{Point, Points};
use tool::progress::Progress;
use tool::pyramid::{Octave, Pyramid};

/// A keypoint's words, an oriented one's, and the sheet's record of it with its descriptor.
type Words = ([u32; 10], [u32; 6], [u32; 139]);

fn coast(width: usize, height: usize, seed: u64) -> Frame {
    pgm::read(&coast::frame(width, height, seed).to_pgm()).unwrap()
}

fn noise(width: usize, height: usize, seed: u64) -> Frame {
    let mut rng = Rng::new(seed);
    Frame {
        width,
        height,
        samples: (0..width * height).map(|_| rng.below(256) as f32).collect(),
    }
}

/// The record of rule S4, as the words of rule S7: blank where no sample was used.
fn record(k: &[u32; 10], o: &[u32; 6], (values, samples): ([u32; 128], usize)) -> [u32; 139] {
    let [octave, layer, code, _] = o[4].to_le_bytes().map(u32::from);
    let mut w = [0; 139];
    w[..10].copy_from_slice(&[
        k[8], k[7], octave, layer, code, o[0], o[1], o[2], o[3], o[5],
    ]);
    for (w, v) in w[10..].iter_mut().zip(values) {
        let v = f32::from_bits(v);
        assert!(v.fract() == 0.0 && (0.0..=255.0).contains(&v));
        *w = v as u32;
    }
    w[138] = u32::from(samples == 0);
    w
}

/// The positions that are kept of these keypoints, by the second rendering.
fn kept(f: &Frame, w: &Wanted, all: &[(usize, [u32; 10])]) -> Vec<u32> {
    let (width, height) = find::size(f, w.double);
    let (quota, depth) = w.cover.map_or((usize::MAX, 0), |c| (c.quota, c.depth));
    let case = thinning::Case {
        width,
        height,
        words: all.iter().flat_map(|a| a.1).collect(),
        quota,
        depth,
    };
    assert_eq!(thinning::reason(&case), None);
    thinning::kept(&case)
}

/// A record for each direction of a keypoint.
fn described(octave: &Octave, k: [u32; 10], directions: Vec<[u32; 6]>) -> Vec<Words> {
    let plane = octave.picture(k[5] as usize).samples;
    let each = directions.into_iter().map(|o| {
        let at = oracle::descriptor_inputs(&o, octave.number as i32).map(f32::from_bits);
        let told = oracle::compute_descriptor(plane, octave.width, octave.height, at);
        (k, o, record(&k, &o, told))
    });
    each.collect()
}

/// What the published Rust finds, by the layer searched; a keypoint's picture is that of the layer where it settled. Behind it, what
/// it makes of the points.
fn theirs(f: &Frame, w: &Wanted, points: &Points) -> Vec<Words> {
    let s = &w.settings;
    let octaves: Vec<_> = Pyramid::new(&f.samples, f.width, f.height, s, w.double).collect();
    let mut found = Vec::new();
    for (at, octave) in octaves.iter().enumerate() {
        for layer in 1..=s.layers {
            let list = oracle::find_extrema(&octave.stack(), layer, octave.number, s);
            found.extend(list.into_iter().map(|k| (at, k)));
        }
    }
    let assigned = |octave: &Octave, k: &[u32; 10]| {
        let plane = octave.picture(k[5] as usize).samples;
        oracle::assign_orientations(plane, octave.width, octave.height, k).0
    };
    let mut all = Vec::new();
    for p in kept(f, w, &found) {
        let (at, k) = found[p as usize];
        let octave = &octaves[at];
        all.extend(described(octave, k, assigned(octave, &k)));
    }
    let given = Fit::new(f, s, w.double).keypoints(points).unwrap();
    for (k, p) in given.iter().zip(&points.list) {
        let k = k.to_words();
        let octave = &octaves[(k[4] & 255) as usize];
        let towards = |angle: f32| vec![[k[0], k[1], k[2], k[3], k[4], angle.to_bits()]];
        let directions = match (p.angle, assigned(octave, &k)) {
            (Some(angle), _) => towards(angle),
            (None, none) if none.is_empty() => towards(0.0),
            (None, some) => some,
        };
        all.extend(described(octave, k, directions));
    }
    all
}

/// The sheet is read by the format's second rendering, not by the library.
fn said(f: &Frame, w: &Wanted, order: &Order) -> (usize, Vec<[u32; 139]>) {
    let made = extract(f, w, order, &mut Progress::none()).unwrap();
    let bytes = bargeclover::write_sheet(&made.sheet).unwrap();
    let (said, records) = cases::sheet::read(&bytes).unwrap();
    let size = find::size(f, w.double);
    assert_eq!((said.width, said.height), size);
    assert_eq!(
        (said.edition, said.layers),
        (order.edition, w.settings.layers)
    );
    (made.keypoints, records)
}

/// Edition 1 says the same, but for what is blank.
fn hold_edition_1(second: &[[u32; 139]], first: &[[u32; 139]]) {
    assert_eq!(second.len(), first.len());
    for (a, b) in second.iter().zip(first) {
        assert_eq!(a[..138], b[..138]);
        let zero = a[10..138] == [0; 128];
        assert_eq!(b[138], if zero { 2 } else { 0 });
    }
}

/// How many records, and how many of them level and blank.
fn hold(f: &Frame, w: &Wanted, points: &Points) -> [usize; 3] {
    let mut found = Vec::new();
    let keypoints = find::each(f, w, &mut Progress::none(), |_, k, o| {
        found.push((k.to_words(), o.to_words()));
        Ok(())
    })
    .unwrap()
    .keypoints;
    let order = |edition| Order {
        edition,
        points: points.clone(),
    };
    let (many, records) = said(f, w, &order(2));
    assert_eq!(many, keypoints);
    hold_edition_1(&records, &said(f, w, &order(1)).1);
    let only = Wanted {
        cover: None,
        unsearched: true,
        ..*w
    };
    let (none, alone) = said(f, &only, &order(2));
    assert_eq!(none, 0);
    // what is found comes first
    let (first, last) = records.split_at(found.len());
    assert!(alone == last && last.len() >= points.list.len());

    let wanted = std::env::var("CI").is_ok_and(|v| v == "true");
    assert!(
        oracle::FOUND || !wanted,
        "with CI=true the published Rust must be there"
    );
    if oracle::FOUND {
        let theirs = theirs(f, w, points);
        let told = || format!("{} x {}, {w:?}", f.width, f.height);
        assert!(theirs.iter().map(|t| &t.2).eq(&records), "{}", told());
        for ((k, o), t) in found.iter().zip(&theirs[..first.len()]) {
            assert!(*k == t.0 && *o == t.1, "{}", told());
        }
    }
    let zero = |blank| move |r: &&[u32; 139]| r[10..] == [&[0; 128][..], &[blank]].concat();
    let count = |blank| records.iter().filter(zero(blank)).count();
    [records.len(), count(0), count(1)]
}

/// Points anywhere on a frame, many of them at its rim and small, each of a size that is taken.
fn points(rng: &mut Rng, f: &Frame, w: &Wanted) -> Points {
    let fit = Fit::new(f, &w.settings, w.double);
    let place = |rng: &mut Rng, side: usize| match rng.below(4) {
        0 => 0.0,
        1 => (side - 1) as f32,
        2 => rng.below(side) as f32,
        _ => rng.unit() as f32 * (side - 1) as f32,
    };
    let mut points = Points::default();
    for line in 1..=12 {
        let size = match rng.below(4) {
            0 => 0.25,
            1 => 0.25 + rng.unit() * 0.05,
            2 => 0.25 + rng.unit() * 8.0,
            _ => (rng.unit() * 9.0).exp2() * 0.25,
        };
        let p = Point {
            line,
            x: place(rng, f.width),
            y: place(rng, f.height),
            size: size as f32,
            angle: rng.one_in(2).then(|| (rng.unit() * 359.0) as f32),
        };
        let alone = Points {
            list: vec![p],
            ..Points::default()
        };
        if fit.keypoints(&alone).is_ok() {
            points.list.push(p);
        }
    }
    points
}

#[test]
fn the_shipped_frame() {
    let path = concat!(env!("CARGO_MANIFEST_DIR"), "/../../frames/coast.pgm");
    let frame = pgm::read(&std::fs::read(path).unwrap()).unwrap();
    let many = |w: &Wanted| hold(&frame, w, &Points::default())[0];
    let plain = many(&Wanted::default());
    assert!(plain > 100, "{plain}");
    let double = Wanted {
        double: true,
        ..Wanted::default()
    };
    assert!(many(&double) > 2 * plain);
}

#[test]
fn frames_of_every_kind() {
    let (mut rng, mut quotas, mut places) = (Rng::new(21), Rng::new(22), Rng::new(23));
    let (mut many, mut kept) = (0, 0);
    let (mut level, mut blank) = (0, 0);
    for k in 0..24 {
        let (w, h) = (rng.from_to(1, 150), rng.from_to(1, 120));
        let frame = if k % 2 == 0 {
            coast(w, h, k)
        } else {
            noise(w, h, k)
        };
        let wanted = Wanted {
            settings: Settings {
                contrast: rng.pick(&[0.0, 0.01, 0.04, 0.1]),
                edge: rng.pick(&[2.0, 10.0, 1000.0]),
                sigma: rng.pick(&[0.5, 1.2, 1.6, 3.0]),
                layers: rng.pick(&[1, 2, 3, 3, 5, 15]),
            },
            double: rng.one_in(3),
            cover: None,
            unsearched: false,
        };
        let points = points(&mut places, &frame, &wanted);
        let [found, flat, unread] = hold(&frame, &wanted, &points);
        level += flat;
        blank += unread;
        let cover = Cover {
            quota: quotas.pick(&[1, 3, 4, 50, 400]) + quotas.below(20),
            depth: quotas.below(13) as u32,
        };
        let thinned = Wanted {
            cover: Some(cover),
            ..wanted
        };
        let [some, ..] = hold(&frame, &thinned, &points);
        assert!(some <= found);
        many += found;
        kept += some;
    }
    assert!(many > 5000, "{many}");
    assert!(kept > 500 && kept < many / 2, "{kept} of {many}");
    assert!(level > 5 && blank > 20, "{level} {blank}");
}

#[test]
fn a_flat_frame_has_none() {
    let flat = Frame {
        width: 64,
        height: 64,
        samples: vec![52.0; 64 * 64],
    };
    let w = Wanted::default();
    assert_eq!(hold(&flat, &w, &Points::default()), [0; 3]);
    // each point has one record, in the middle a level one and in the corner a blank one
    let at = |x, y, size| Point {
        line: 1,
        x,
        y,
        size,
        angle: None,
    };
    let list = vec![at(32.0, 32.0, 4.0), at(0.0, 63.0, 0.25)];
    let points = Points {
        list,
        ..Points::default()
    };
    assert_eq!(hold(&flat, &w, &points), [2, 1, 1]);
}
