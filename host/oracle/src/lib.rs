//! The published Rust as the judge of "bit for bit": its scalar path alone, with our routines called through the C entries on
//! float bits (rule F2). `build.rs` reads, patches and checks its text; see there for each patch.
//! These functions take and give the words of rule A18 and trust their caller: what an entry refuses is not to be passed.

/// Whether the published Rust was found when this was built. Without it the functions below panic.
pub const FOUND: bool = cfg!(source_found);

#[cfg(source_found)]
#[allow(warnings, clippy::all)]
pub mod sift {
    include!(concat!(env!("OUT_DIR"), "/sift.rs"));
}

/// The same with its own routines, as whoever takes the Rust takes it: to be timed, not compared.
#[cfg(source_found)]
#[allow(warnings, clippy::all)]
mod own_sift {
    include!(concat!(env!("OUT_DIR"), "/own.rs"));
}

/// Stands for rayon: rows one after the other.
#[cfg(source_found)]
mod rows {
    pub trait InOrder: Iterator + Sized {
        fn into_par_iter(self) -> Self {
            self
        }
    }

    impl<I: Iterator> InOrder for I {}
}

/// Our routines, through the C entries on float bits.
#[cfg(source_found)]
mod routines {
    use bargeclover::bits;

    pub fn exp2(x: f32) -> f32 {
        f32::from_bits(bits::exp2(x.to_bits()))
    }

    pub fn exp(x: f32) -> f32 {
        f32::from_bits(bits::exp(x.to_bits()))
    }

    pub fn sin(degrees: f32) -> f32 {
        f32::from_bits(bits::sin(degrees.to_bits()))
    }

    pub fn cos(degrees: f32) -> f32 {
        f32::from_bits(bits::cos(degrees.to_bits()))
    }

    pub fn angle(dx: f32, dy: f32) -> f32 {
        f32::from_bits(bits::angle(dx.to_bits(), dy.to_bits()))
    }

    pub fn magnitude(dx: f32, dy: f32) -> f32 {
        f32::from_bits(bits::magnitude(dx.to_bits(), dy.to_bits()))
    }
}

/// The stages of the source as they are timed, each with what it keeps from run to run, over one of the two modules.
#[cfg(source_found)]
macro_rules! stages {
    ($source:path) => {
        use source::descriptor::{self, DescriptorScratch};
        use source::detect::{self, RawKeypoint};
        use source::orient::{self, OrientScratch, OrientedKeypoint};
        use source::params::SiftConfig;
        use $source as source;

        fn config(s: &Settings) -> SiftConfig {
            SiftConfig {
                n_features: 0,
                n_octave_layers: s.layers,
                contrast_threshold: s.contrast,
                edge_threshold: s.edge,
                sigma: s.sigma,
            }
        }

        /// The source's search and its list, which is kept from run to run, to be timed.
        #[derive(Default)]
        pub struct Search(Vec<RawKeypoint>);

        impl Search {
            /// How many keypoints the layer has.
            pub fn run(&mut self, stack: &Stack, layer: usize, octave: u32, s: &Settings) -> usize {
                self.0.clear();
                detect::find_extrema(
                    stack.samples,
                    stack.width,
                    stack.height,
                    stack.planes,
                    layer,
                    octave as usize,
                    &config(s),
                    &mut self.0,
                );
                self.0.len()
            }
        }

        fn raw(k: &[u32; 10]) -> RawKeypoint {
            RawKeypoint {
                x: f32::from_bits(k[0]),
                y: f32::from_bits(k[1]),
                size: f32::from_bits(k[2]),
                response: f32::from_bits(k[3]),
                octave: k[4] as i32,
                layer: k[5] as i32,
                xi: f32::from_bits(k[6]),
                cc: k[7] as i32,
                rr: k[8] as i32,
                moves: k[9] as usize,
            }
        }

        /// The source's orientation with its list and scratch, which are kept from run to run, to be timed.
        #[derive(Default)]
        pub struct Orientation(Vec<OrientedKeypoint>, OrientScratch);

        impl Orientation {
            /// The cells read.
            fn assign(&mut self, img: &[f32], width: usize, height: usize, k: &[u32; 10]) -> usize {
                self.0.clear();
                let config = SiftConfig::default();
                orient::assign_orientations(
                    img,
                    width,
                    height,
                    &raw(k),
                    &config,
                    &mut self.0,
                    &mut self.1,
                )
            }

            /// How many directions the keypoint has.
            pub fn run(
                &mut self,
                img: &[f32],
                width: usize,
                height: usize,
                k: &[u32; 10],
            ) -> usize {
                self.assign(img, width, height, k);
                self.0.len()
            }
        }

        /// The source's descriptor and its scratch, which is kept from run to run, to be timed.
        #[derive(Default)]
        pub struct Describe(DescriptorScratch);

        impl Describe {
            /// The samples used.
            pub fn run(
                &mut self,
                img: &[f32],
                width: usize,
                height: usize,
                [x, y, scale, angle]: [f32; 4],
                out: &mut [f32; 128],
            ) -> usize {
                let sc = &mut self.0;
                descriptor::compute_descriptor(img, width, height, x, y, scale, angle, out, sc)
            }
        }
    };
}

/// The stages of the source with its own routines.
#[cfg(source_found)]
pub mod own {
    use bargeclover::{Settings, Stack};

    stages!(super::own_sift);
}

#[cfg(source_found)]
pub use found::*;

#[cfg(source_found)]
mod found {
    /// The source's own scalar routines, to be timed: exponential, angle of (dy, dx), magnitude.
    pub use super::sift::hal::{
        source_atan2_deg as own_angle, source_exp as own_exp, source_magnitude as own_magnitude,
    };

    use bargeclover::{Settings, Stack};

    stages!(super::sift);

    /// The bits of a float, one pattern for every not-a-number. The test is of the bits, since LLVM may drop one of the float.
    fn word(x: f32) -> u32 {
        let b = x.to_bits();
        if b & 0x7fff_ffff > 0x7f80_0000 {
            bargeclover::bits::NAN
        } else {
            b
        }
    }

    pub fn threshold(contrast: f64, layers: usize) -> f32 {
        detect::extrema_threshold(&config(&Settings {
            contrast,
            layers,
            ..Settings::default()
        }))
    }

    /// The keypoints of one layer, ten words each.
    pub fn find_extrema(stack: &Stack, layer: usize, octave: u32, s: &Settings) -> Vec<[u32; 10]> {
        let mut search = Search::default();
        search.run(stack, layer, octave, s);
        let words = search.0.iter();
        words
            .map(|k| {
                [
                    word(k.x),
                    word(k.y),
                    word(k.size),
                    word(k.response),
                    k.octave as u32,
                    k.layer as u32,
                    word(k.xi),
                    k.cc as u32,
                    k.rr as u32,
                    k.moves as u32,
                ]
            })
            .collect()
    }

    /// The oriented keypoints of one keypoint, six words each, and the cells read.
    pub fn assign_orientations(
        img: &[f32],
        width: usize,
        height: usize,
        keypoint: &[u32; 10],
    ) -> (Vec<[u32; 6]>, usize) {
        let mut orientation = Orientation::default();
        let n = orientation.assign(img, width, height, keypoint);
        let words = orientation.0.iter();
        let words = words.map(|o| {
            [
                word(o.x),
                word(o.y),
                word(o.size),
                word(o.response),
                o.octave as u32,
                word(o.angle),
            ]
        });
        (words.collect(), n)
    }

    /// A descriptor's position, scale and angle by their bits.
    pub fn descriptor_inputs(oriented: &[u32; 6], octave: i32) -> [u32; 4] {
        let o = oriented;
        let (x, y, scale, angle) = descriptor::descriptor_inputs(
            &OrientedKeypoint {
                x: f32::from_bits(o[0]),
                y: f32::from_bits(o[1]),
                size: f32::from_bits(o[2]),
                response: f32::from_bits(o[3]),
                octave: o[4] as i32,
                angle: f32::from_bits(o[5]),
            },
            octave,
        );
        [word(x), word(y), word(scale), word(angle)]
    }

    /// The 128 values by their bits, and the samples used.
    pub fn compute_descriptor(
        img: &[f32],
        width: usize,
        height: usize,
        at: [f32; 4],
    ) -> ([u32; 128], usize) {
        let mut out = [0.0; 128];
        let n = Describe::default().run(img, width, height, at, &mut out);
        (out.map(word), n)
    }
}

#[cfg(not(source_found))]
pub use missing::*;

/// The stages of the source with its own routines do not exist either.
#[cfg(not(source_found))]
pub mod own {
    pub use super::missing::{Describe, Orientation, Search};
}

/// Without the source: what would be compared does not exist.
#[cfg(not(source_found))]
mod missing {
    use bargeclover::{Settings, Stack};

    const MISSING: &str = "the published Rust was not found when this was built";

    pub fn own_exp(_: f32) -> f32 {
        panic!("{MISSING}")
    }

    pub fn own_angle(_: f32, _: f32) -> f32 {
        panic!("{MISSING}")
    }

    pub fn own_magnitude(_: f32, _: f32) -> f32 {
        panic!("{MISSING}")
    }

    #[derive(Default)]
    pub struct Orientation;

    impl Orientation {
        pub fn run(&mut self, _: &[f32], _: usize, _: usize, _: &[u32; 10]) -> usize {
            panic!("{MISSING}")
        }
    }

    #[derive(Default)]
    pub struct Search;

    impl Search {
        pub fn run(&mut self, _: &Stack, _: usize, _: u32, _: &Settings) -> usize {
            panic!("{MISSING}")
        }
    }

    pub fn threshold(_: f64, _: usize) -> f32 {
        panic!("{MISSING}")
    }

    pub fn find_extrema(_: &Stack, _: usize, _: u32, _: &Settings) -> Vec<[u32; 10]> {
        panic!("{MISSING}")
    }

    pub fn assign_orientations(
        _: &[f32],
        _: usize,
        _: usize,
        _: &[u32; 10],
    ) -> (Vec<[u32; 6]>, usize) {
        panic!("{MISSING}")
    }

    pub fn descriptor_inputs(_: &[u32; 6], _: i32) -> [u32; 4] {
        panic!("{MISSING}")
    }

    #[derive(Default)]
    pub struct Describe;

    impl Describe {
        pub fn run(
            &mut self,
            _: &[f32],
            _: usize,
            _: usize,
            _: [f32; 4],
            _: &mut [f32; 128],
        ) -> usize {
            panic!("{MISSING}")
        }
    }

    pub fn compute_descriptor(_: &[f32], _: usize, _: usize, _: [f32; 4]) -> ([u32; 128], usize) {
        panic!("{MISSING}")
    }
}
