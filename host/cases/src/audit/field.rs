//! Fields of a record that are other lawful ones.

use super::change::Change;
use super::draft::Draft;
use crate::record::WORDS;
use crate::{Rng, sheet};

/// Another number from lo to hi, often a neighbour; none where there is none.
pub(super) fn another(r: &mut Rng, now: usize, lo: usize, hi: usize) -> Option<usize> {
    let near = [now.wrapping_sub(1), now + 1, r.from_to(lo, hi), lo, hi];
    let from = r.below(5);
    let all = (0..5).map(|k| near[(k + from) % 5]);
    let mut all = all.filter(|&n| n != now && lo <= n && n <= hi);
    all.next()
}

/// The bits of another float that a record may have, often a neighbour; `least` is the least that is lawful.
fn another_float(r: &mut Rng, now: u32, least: u32) -> u32 {
    loop {
        let next = match r.below(3) {
            0 => now ^ 1,
            1 => now ^ 1 << r.below(31),
            _ => sheet::float(r),
        };
        if next != now && (least..0x7f80_0000).contains(&next) {
            return next;
        }
    }
}

fn another_angle(r: &mut Rng, now: u32) -> u32 {
    loop {
        let next = match r.below(3) {
            0 => now ^ 1,
            1 => now ^ 1 << r.below(31),
            _ => ((359.9 * r.unit()) as f32).to_bits(),
        };
        if next != now && (0.0..360.0).contains(&f32::from_bits(next)) {
            return next;
        }
    }
}

/// A record in which one field is another lawful one; none where the field has no other.
pub(super) fn with_field(
    r: &mut Rng,
    d: &Draft,
    mut w: [u32; WORDS],
    which: Change,
) -> Option<[u32; WORDS]> {
    let number = |r: &mut Rng, now: u32, lo, hi| {
        let next = another(r, now as usize, lo, hi);
        next.map(|n| n as u32)
    };
    match which {
        Change::Row => w[0] = number(r, w[0], 0, d.height - 1)?,
        Change::Column => w[1] = number(r, w[1], 0, d.width - 1)?,
        Change::Layer => w[3] = number(r, w[3], 1, d.layers)?,
        Change::Code => w[4] = number(r, w[4], 0, 255)?,
        Change::X => w[5] = another_float(r, w[5], 0),
        Change::Y => w[6] = another_float(r, w[6], 0),
        Change::Size => w[7] = another_float(r, w[7], 1),
        Change::Response => w[8] = another_float(r, w[8], 0),
        Change::Angle => w[9] = another_angle(r, w[9]),
        Change::Blank if d.edition == 1 => return None,
        Change::Blank => {
            // a blank record has no values
            w[WORDS - 1] ^= 1;
            w[10..WORDS - 1].fill(0);
        }
        _ => {
            let at = r.from_to(10, WORDS - 2);
            w[at] = number(r, w[at], 0, 255)?;
        }
    }
    Some(w)
}
