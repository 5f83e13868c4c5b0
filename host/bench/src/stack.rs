//! How much stack each entry takes: it is called in a thread whose stack is painted before, and afterwards one looks how far down
//! the paint is gone. include/bargeclover.h has the figures that a test holds these to.

use crate::audit::LIBRARY;
use bargeclover::{Aim, Picture, Settings, bits, entries};
use cases::audit::change::{Change, changed, whole};
use cases::audit::{self, octave};
use cases::detection::Kind;
use cases::thinning::{self, Places, Responses};
use cases::{Rng, descriptor, detection, floats, orientation, picture, record, sheet};
use std::alloc::{Layout, alloc, dealloc};
use std::ffi::c_void;
use std::hint::black_box;
use std::slice;

const SIZE: usize = 1 << 20;
const PAINT: u8 = 0xa5;

/// A `pthread_attr_t`, which has 56 bytes on x86-64 and 64 on Arm.
#[repr(C)]
struct Attributes([u64; 16]);

unsafe extern "C" {
    fn pthread_attr_init(attributes: *mut Attributes) -> i32;
    fn pthread_attr_setstack(attributes: *mut Attributes, at: *mut c_void, size: usize) -> i32;
    fn pthread_attr_destroy(attributes: *mut Attributes) -> i32;
    fn pthread_create(
        thread: *mut usize,
        attributes: *const Attributes,
        start: extern "C" fn(*mut c_void) -> *mut c_void,
        given: *mut c_void,
    ) -> i32;
    fn pthread_join(thread: usize, answer: *mut *mut c_void) -> i32;
}

struct Job<'a> {
    calls: &'a mut dyn FnMut(),
    /// Where the stack was when the calls began.
    top: usize,
}

extern "C" fn start(given: *mut c_void) -> *mut c_void {
    // SAFETY: `depth` hands over a job of its own, and waits for the end.
    let job = unsafe { &mut *given.cast::<Job>() };
    let here = 0u8;
    job.top = black_box(&raw const here).addr();
    (job.calls)();
    std::ptr::null_mut()
}

/// The bytes of stack that these calls take, all but the largest forgotten. They must not panic.
fn depth(mut calls: impl FnMut()) -> usize {
    let layout = Layout::from_size_align(SIZE, 4096).unwrap();
    let mut job = Job {
        calls: &mut calls,
        top: 0,
    };
    // SAFETY: the memory is ours and is given back when the thread that has it for its stack has ended.
    unsafe {
        let memory = alloc(layout);
        assert!(!memory.is_null());
        memory.write_bytes(PAINT, SIZE);
        let mut attributes = Attributes([0; 16]);
        assert_eq!(pthread_attr_init(&mut attributes), 0);
        assert_eq!(
            pthread_attr_setstack(&mut attributes, memory.cast(), SIZE),
            0
        );
        let mut thread = 0;
        let given = (&raw mut job).cast();
        assert_eq!(pthread_create(&mut thread, &attributes, start, given), 0);
        assert_eq!(pthread_join(thread, std::ptr::null_mut()), 0);
        pthread_attr_destroy(&mut attributes);
        let left = slice::from_raw_parts(memory, SIZE);
        let untouched = left.iter().take_while(|b| **b == PAINT).count();
        let lowest = memory.addr() + untouched;
        dealloc(memory, layout);
        job.top - lowest
    }
}

fn picture_of(p: &picture::Picture) -> Picture<'_> {
    Picture {
        samples: &p.samples,
        width: p.width,
        height: p.height,
    }
}

fn of_detection(r: &mut Rng) -> usize {
    let mut all: Vec<_> = (0..600)
        .map(|k| detection::accepted(r, Kind::ALL[k % Kind::ALL.len()]))
        .collect();
    // One with more keypoints than are held back, and with too little room for them.
    let (width, height) = (160, 160);
    let noise = (0..3 * width * height)
        .map(|_| (200.0 * r.signed()) as f32)
        .collect();
    all.push(detection::Case {
        samples: noise,
        width,
        height,
        planes: 3,
        layer: 1,
        octave: 0,
        settings: Settings {
            contrast: 0.0,
            edge: 1000.0,
            sigma: 1.6,
            layers: 1,
        },
    });
    let mut out = vec![0; 400_000];
    depth(|| {
        for c in &all {
            let stack = c.stack();
            for room in [0, 20_480, 40_000, out.len()] {
                let out = &mut out[..room];
                black_box(entries::find_extrema(
                    &stack,
                    c.layer,
                    c.octave,
                    &c.settings,
                    out,
                ));
            }
        }
    })
}

fn of_orientation(r: &mut Rng) -> usize {
    let all: Vec<_> = (0..600).map(|_| orientation::accepted(r)).collect();
    let mut out = vec![0; 6 * 36];
    depth(|| {
        for c in &all {
            let picture = picture_of(&c.picture);
            black_box(entries::assign_orientations(
                &picture,
                &c.keypoint,
                &mut out,
            ));
        }
    })
}

fn of_descriptor(r: &mut Rng) -> usize {
    let all: Vec<_> = (0..600).map(|_| descriptor::accepted(r)).collect();
    let mut out = vec![0.0; 128];
    depth(|| {
        for c in &all {
            let aim = Aim {
                x: c.x,
                y: c.y,
                scale: c.scale,
                angle: c.angle,
            };
            let picture = picture_of(&c.picture);
            black_box(entries::compute_descriptor(&picture, &aim, &mut out));
        }
    })
}

/// Thinning whose calls are so deep, 2 to 7: all keypoints lie in one place of the first cell, fewer than are held and more. For one
/// call more the quota has to be four times as large.
fn of_calls(r: &mut Rng, calls: u32) -> usize {
    let quota = 3 * 4usize.pow(calls - 2) + 1;
    let lists = [quota + 1, thinning::HELD - 1, thinning::HELD + 1, 20_000].map(|many| {
        let mut words = thinning::list(r, many, [8192, 8192], Places::Heap, Responses::Any);
        for k in words.as_chunks_mut::<{ thinning::WORDS }>().0 {
            k[..2].fill(0);
        }
        words
    });
    let mut out = vec![0; quota];
    depth(|| {
        for words in &lists {
            for room in [0, quota] {
                let out = &mut out[..room];
                black_box(entries::thin(8192, 8192, words, quota, 12, out));
            }
        }
    })
}

/// The stack of the deepest calls, 13, which a list of less than twelve million keypoints does not reach: that of seven, and three times
/// what two more take.
fn of_thinning(r: &mut Rng) -> usize {
    let [five, seven] = [5, 7].map(|calls| of_calls(r, calls));
    seven + 3 * (seven - five)
}

fn of_sheets(r: &mut Rng) -> [usize; 2] {
    let all: Vec<_> = (0..200).map(|_| sheet::accepted(r, 20)).collect();
    let sheets: Vec<_> = all.iter().map(sheet::written).collect();
    let (mut bytes, mut words) = (vec![0; 4000], vec![0; 4000]);
    let writer = depth(|| {
        for c in &all {
            let (w, h) = (c.width, c.height);
            let (edition, words) = (c.edition, &c.words);
            black_box(entries::write_sheet(
                edition, w, h, c.layers, words, &mut bytes,
            ));
        }
    });
    let reader = depth(|| {
        for s in &sheets {
            black_box(entries::read_sheet(s, &mut words));
        }
    });
    [writer, reader]
}

fn of_records(r: &mut Rng) -> usize {
    let all: Vec<_> = (0..2000)
        .map(|k| {
            let mut c = record::accepted(r);
            if k % 4 == 0 {
                record::damage(r, &mut c);
            }
            c
        })
        .collect();
    let mut out = [0; record::WORDS];
    depth(|| {
        for c in &all {
            let (k, o, values) = (&c.keypoint, &c.oriented, &c.values);
            black_box(entries::make_record(k, o, values, c.samples, &mut out));
        }
    })
}

/// Sheets of octaves, whole and changed.
fn of_audits(r: &mut Rng) -> usize {
    let mut all: Vec<audit::Case> = Vec::new();
    for k in 0..200 {
        let (_, mut c, made) = octave::any(r, &LIBRARY);
        let change = Change::ALL[k % Change::ALL.len()];
        for edition in [1, 2] {
            c.sheet = match changed(r, &c, &made, edition, change) {
                Some(bytes) => bytes,
                None => whole(&c, &made, edition),
            };
            all.push(c.clone());
        }
    }
    depth(|| {
        for c in &all {
            let s = (&c.stack(), &c.gauss, c.octave, &c.settings);
            black_box(entries::check_sheet(s.0, s.1, s.2, s.3, c.base, &c.sheet));
        }
    })
}

/// What calls on many operands take, half of them any pattern and half of them numbers.
fn of_operands(r: &mut Rng, call: impl Fn([u32; 3], u64)) -> usize {
    let all: Vec<([u32; 3], u64)> = (0..20_000)
        .map(|_| {
            let number = (400.0 * r.signed()) as f32;
            let tiny = number * f32::powi(2.0, -(r.below(140) as i32));
            let three = [tiny.to_bits(), floats::pattern(r), number.to_bits()];
            let any = [floats::pattern(r), floats::pattern(r), floats::pattern(r)];
            let one = if r.one_in(2) { any } else { three };
            (one, floats::pattern64(r))
        })
        .collect();
    depth(|| {
        for (three, wide) in &all {
            call(*three, *wide);
        }
    })
}

/// Each entry by its name in C, without the prefix, and the bytes of stack that it took.
pub fn measured() -> Vec<(&'static str, usize)> {
    let r = &mut Rng::new(1);
    let mut all = vec![
        ("find_extrema", of_detection(r)),
        ("thin", of_thinning(r)),
        ("assign_orientations", of_orientation(r)),
        ("compute_descriptor", of_descriptor(r)),
    ];
    all.push(("make_record", of_records(r)));
    let [writer, reader] = of_sheets(r);
    all.push(("write_sheet", writer));
    all.push(("read_sheet", reader));
    all.push(("check_sheet", of_audits(r)));
    all.push((
        "descriptor_inputs",
        of_operands(r, |t, w| {
            let oriented = [t[0], t[1], t[2] >> 1, 0, 256, t[2] >> 1];
            let mut out = [0; 4];
            black_box(entries::descriptor_inputs(
                &oriented,
                (w % 17) as i32,
                &mut out,
            ));
        }),
    ));
    all.push((
        "threshold",
        of_operands(r, |t, w| {
            let contrast = f64::from(f32::from_bits(t[0])).abs() / 400.0;
            black_box(entries::threshold(contrast, (w % 17) as usize));
        }),
    ));
    type Call = fn([u32; 3], u64) -> u32;
    let operations: [(&str, Call); 12] = [
        ("exp2", |t, _| bits::exp2(t[0])),
        ("exp", |t, _| bits::exp(t[0] | 1 << 31)),
        ("sin", |t, _| bits::sin(t[0])),
        ("cos", |t, _| bits::cos(t[0])),
        ("angle", |t, _| bits::angle(t[0], t[1])),
        ("magnitude", |t, _| bits::magnitude(t[0], t[2])),
        ("fma", |t, _| bits::fma(t[0], t[1], t[2])),
        ("sqrt", |t, _| bits::sqrt(t[0])),
        ("narrow", |_, w| bits::narrow(w)),
        ("floor", |t, _| bits::floor(t[0])),
        ("round", |t, _| bits::round(t[0])),
        ("to_i32", |t, _| bits::to_i32(t[0]).cast_unsigned()),
    ];
    for (name, call) in operations {
        all.push((name, of_operands(r, |t, w| _ = black_box(call(t, w)))));
    }
    all
}

pub fn print() {
    println!("## Stack\n\n| entry | bytes of stack |\n|---|---|");
    for (name, bytes) in measured() {
        println!("| {name} | {bytes} |");
    }
    println!();
}

#[cfg(all(test, target_arch = "x86_64"))]
mod tests {
    use super::measured;
    use std::fs;

    /// The header's figures: a line ` *   NAME NAME ..: BYTES` for each, and one of `all others`.
    fn stated() -> Vec<(String, usize)> {
        let header = concat!(env!("CARGO_MANIFEST_DIR"), "/../../include/bargeclover.h");
        let header = fs::read_to_string(header).unwrap();
        let (_, table) = header.split_once(" * Stack, ").unwrap();
        let lines = table.lines().skip_while(|l| !l.starts_with(" *   "));
        let lines = lines.take_while(|l| l.starts_with(" *   "));
        lines
            .flat_map(|l| {
                let (names, bytes) = l[5..].split_once(": ").unwrap();
                let bytes = bytes.trim().parse::<usize>().unwrap();
                names
                    .split(", ")
                    .map(move |n| (n.to_string(), bytes))
                    .collect::<Vec<_>>()
            })
            .collect()
    }

    #[test]
    fn no_entry_takes_more_than_the_header_says() {
        let stated = stated();
        let of = |name: &str| stated.iter().find(|s| s.0 == name).map(|s| s.1);
        for (name, bytes) in measured() {
            let most = of(name).or_else(|| of("all others")).unwrap();
            assert!(bytes <= most, "{name} takes {bytes}, and not {most}");
        }
    }
}
