//! Even cover through the wrapper: what is kept, where cuts lie, room, and what is refused.

use bargeclover::{Keypoint, Refusal, entries, thin};

/// A keypoint of which only the place and the response are set.
fn at(x: f32, y: f32, response: f32) -> Keypoint {
    Keypoint {
        x,
        y,
        response,
        ..Keypoint::from_words(&[0; Keypoint::WORDS])
    }
}

fn words(keypoints: &[Keypoint]) -> Vec<u32> {
    keypoints.iter().flat_map(Keypoint::to_words).collect()
}

/// Five in the first quarter of 100 x 60, and one in each of the others.
fn town() -> Vec<Keypoint> {
    vec![
        at(1.0, 1.0, 0.5),
        at(2.0, 1.0, 0.9),
        at(60.0, 1.0, 0.1),
        at(3.0, 1.0, 0.7),
        at(4.0, 1.0, 0.9),
        at(1.0, 40.0, 0.2),
        at(5.0, 1.0, 0.6),
        at(60.0, 40.0, 0.3),
    ]
}

#[test]
fn a_town_leaves_room_for_farmland() {
    let kept = |quota, depth| thin(100, 60, &town(), quota, depth).unwrap();
    assert_eq!(kept(4, 1), [1, 2, 5, 7]);
    assert_eq!(kept(4, 0), [1, 3, 4, 6]);
    // one for each quarter, and the remainder to the first of them
    assert_eq!(kept(5, 1), [1, 2, 4, 5, 7]);
    assert_eq!(kept(7, 1), [1, 2, 4, 5, 7]);
    // below four nothing is cut
    assert_eq!(kept(3, 12), [1, 3, 4]);
    assert_eq!(kept(1, 12), [1]);
    for quota in [8, 9, usize::MAX] {
        assert_eq!(kept(quota, 12), [0, 1, 2, 3, 4, 5, 6, 7]);
    }
    assert_eq!(thin(100, 60, &[], 1, 12), Ok(vec![]));
}

#[test]
fn on_a_cut_is_right_or_down() {
    // 5 x 3 is cut at 2 and 1; four stronger ones lie in the last quarter, and each quarter keeps one
    let kept = |x, y| {
        let mut all = vec![at(x, y, 0.0)];
        all.extend([at(4.0, 2.0, 1.0); 4]);
        thin(5, 3, &all, 4, 1).unwrap()
    };
    assert_eq!(kept(2.0, 1.0), [1]);
    assert_eq!(kept(2f32.next_down(), 1.0), [0, 1]);
    assert_eq!(kept(2.0, 1f32.next_down()), [0, 1]);
    assert_eq!(kept(-0.0, -0.0), [0, 1]);
}

#[test]
fn a_tie_goes_to_the_earlier() {
    let zeros = [at(0.0, 0.0, -0.0), at(0.0, 0.0, 0.0), at(0.0, 0.0, -1.0)];
    assert_eq!(thin(1, 1, &zeros, 1, 12), Ok(vec![0]));
    assert_eq!(thin(1, 1, &zeros, 2, 12), Ok(vec![0, 1]));
}

#[test]
fn room_is_counted_first() {
    let words = words(&town());
    for room in 0..4 {
        let mut out = vec![7; room];
        let told = entries::thin(100, 60, &words, 4, 1, &mut out);
        assert_eq!((told, out), ((7, 4), vec![7; room]));
    }
    let mut out = [9; 6];
    assert_eq!(entries::thin(100, 60, &words, 4, 1, &mut out), (0, 4));
    assert_eq!(out, [1, 2, 5, 7, 9, 9]);
}

#[test]
fn refusals() {
    let told = |k: Keypoint| thin(100, 60, &[at(1.0, 1.0, 0.5), k], 1, 12);
    for wrong in [
        at(100.0, 1.0, 0.5),
        at(1.0, 60.0, 0.5),
        at(-f32::from_bits(1), 1.0, 0.5),
        at(f32::NAN, 1.0, 0.5),
        at(1.0, f32::INFINITY, 0.5),
        at(1.0, 1.0, f32::NEG_INFINITY),
        at(1.0, 1.0, f32::NAN),
    ] {
        assert_eq!(told(wrong), Err(Refusal::Field), "{wrong:?}");
    }
    let right = at(100f32.next_down(), -0.0, f32::MIN);
    assert_eq!(told(right), Ok(vec![0]));
    // what else a keypoint has does not matter
    let odd = Keypoint {
        size: f32::NAN,
        octave: u32::MAX,
        xi: f32::INFINITY,
        ..right
    };
    assert_eq!(told(odd), Ok(vec![0]));
    let list = [right];
    for (width, height) in [(0, 60), (8193, 60), (100, 0), (100, 8193)] {
        assert_eq!(thin(width, height, &list, 0, 13), Err(Refusal::Shape));
    }
    assert_eq!(thin(100, 60, &list, 0, 12), Err(Refusal::Field));
    assert_eq!(thin(100, 60, &list, 1, 13), Err(Refusal::Field));
    let words = words(&list);
    for part in [1, 9] {
        assert_eq!(
            entries::thin(100, 60, &words[..part], 1, 12, &mut [0]),
            (5, 0)
        );
    }
}
