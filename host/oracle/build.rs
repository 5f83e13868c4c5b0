//! Reads the published `sift` module (kornia-rs at 285a3cc7f0) from the folder that KORNIA_SRC names, or from
//! `../shared/docs/src` beside the repository, patches it where rules A20 and A23 say, and writes one module into OUT_DIR.
//! Nothing of it is kept in the repository. Each patch must match exactly once, or the build stops.

use std::path::{Path, PathBuf};
use std::{env, fs};

const SIFT: &str = "crates/kornia-imgproc/src/features/sift";

/// What is taken, in the order in which the files name each other.
const FILES: [&str; 5] = ["params", "hal", "detect", "orient", "descriptor"];

/// Replaces the text that stands exactly once in the file.
struct Patch {
    file: &'static str,
    old: &'static str,
    new: &'static str,
}

const fn patch(file: &'static str, old: &'static str, new: &'static str) -> Patch {
    Patch { file, old, new }
}

/// The condition of the blocks that rule A23 leaves behind, and one that never holds.
const ARM: &str = "target_arch = \"aarch64\"";
const NEVER: &str = "any()";

/// Places of `ARM`, each with enough text to stand once.
const ARM_BLOCKS: [(&str, &str); 11] = [
    ("hal", "#[cfg(target_arch = \"aarch64\")]\nuse std::arch"),
    (
        "hal",
        "#[cfg(target_arch = \"aarch64\")]\n#[inline]\npub fn recip(",
    ),
    (
        "hal",
        "#[cfg(target_arch = \"aarch64\")]\n#[inline]\npub fn rsqrt(",
    ),
    (
        "hal",
        "#[cfg(target_arch = \"aarch64\")]\n#[inline]\npub fn magnitude(",
    ),
    ("hal", "#[cfg(target_arch = \"aarch64\")]\n    let c ="),
    ("hal", "#[cfg(not(target_arch = \"aarch64\"))]\n    let c ="),
    (
        "hal",
        "#[cfg(target_arch = \"aarch64\")]\n    {\n        use std::arch::aarch64::*;\n        // SAFETY: `k + 4 <= v.len()`",
    ),
    (
        "hal",
        "#[cfg(target_arch = \"aarch64\")]\n    {\n        use std::arch::aarch64::*;\n        // SAFETY: `k + 4 <= len`",
    ),
    ("detect", "#[cfg(target_arch = \"aarch64\")]\n            {"),
    ("descriptor", "#[cfg(target_arch = \"aarch64\")]\n    {"),
    (
        "descriptor",
        "#[cfg(target_arch = \"aarch64\")]\n        unsafe {",
    ),
];

const PATCHES: [Patch; 10] = [
    // The thread pool is left behind: rows in one loop.
    patch("detect", "use rayon::prelude::*;", "use crate::rows::*;"),
    // No crate of a registry: the error type keeps its cases and loses its messages.
    patch(
        "params",
        "#[derive(Debug, Clone, PartialEq, Eq, thiserror::Error)]",
        "#[derive(Debug, Clone, PartialEq, Eq)]",
    ),
    patch(
        "params",
        "    #[error(\"invalid SIFT configuration: {0}\")]\n",
        "",
    ),
    patch(
        "params",
        "    #[error(\"source has {got} elements, need {need} for {width}x{height}\")]\n",
        "",
    ),
    // The tenth word: the moves made before a keypoint settled.
    patch(
        "detect",
        "    /// Integer row the refinement converged to.\n    pub rr: i32,\n",
        "    /// Integer row the refinement converged to.\n    pub rr: i32,\n    pub moves: usize,\n",
    ),
    patch(
        "detect",
        "        cc,\n        rr,\n    })\n",
        "        cc,\n        rr,\n        moves: step,\n    })\n",
    ),
    // The cells read in orientation, and the samples used in a descriptor.
    patch(
        "orient",
        "    sc: &mut OrientScratch,\n) {\n",
        "    sc: &mut OrientScratch,\n) -> usize {\n",
    ),
    patch(
        "orient",
        "    let _ = cfg;\n}\n",
        "    let _ = cfg;\n    len\n}\n",
    ),
    patch(
        "descriptor",
        "    sc: &mut DescriptorScratch,\n) {\n",
        "    sc: &mut DescriptorScratch,\n) -> usize {\n",
    ),
    patch(
        "descriptor",
        "        *o = ((v * scale).round_ties_even()).clamp(0.0, 255.0);\n    }\n}\n",
        "        *o = ((v * scale).round_ties_even()).clamp(0.0, 255.0);\n    }\n    len\n}\n",
    ),
];

/// The routines are ours, on float bits, sine and cosine in degrees. The source's own stay beside them under another name, to be
/// timed.
const ROUTINES: [Patch; 6] = [
    patch(
        "hal",
        "#[cfg(not(target_arch = \"aarch64\"))]\n#[inline]\npub fn magnitude(x: f32, y: f32) -> f32 {\n",
        "#[inline]\npub fn magnitude(x: f32, y: f32) -> f32 {\n    crate::routines::magnitude(x, y)\n}\n\n#[inline]\npub fn source_magnitude(x: f32, y: f32) -> f32 {\n",
    ),
    patch(
        "hal",
        "pub fn atan2_deg(y: f32, x: f32) -> f32 {\n",
        "pub fn atan2_deg(y: f32, x: f32) -> f32 {\n    crate::routines::angle(x, y)\n}\n\n#[inline]\npub fn source_atan2_deg(y: f32, x: f32) -> f32 {\n",
    ),
    patch(
        "hal",
        "pub fn exp(x: f32) -> f32 {\n",
        "pub fn exp(x: f32) -> f32 {\n    crate::routines::exp(x)\n}\n\n#[inline]\npub fn source_exp(x: f32) -> f32 {\n",
    ),
    patch(
        "detect",
        "((layer as f32 + xi) / cfg.n_octave_layers as f32).exp2()",
        "crate::routines::exp2((layer as f32 + xi) / cfg.n_octave_layers as f32)",
    ),
    patch(
        "descriptor",
        "(ori * (std::f32::consts::PI / 180.0)).cos()",
        "crate::routines::cos(ori)",
    ),
    patch(
        "descriptor",
        "(ori * (std::f32::consts::PI / 180.0)).sin()",
        "crate::routines::sin(ori)",
    ),
];

/// Where the source keeps its own routines, a place of `ARM` more.
const OWN_ARM: (&str, &str) = (
    "hal",
    "#[cfg(not(target_arch = \"aarch64\"))]\n#[inline]\npub fn magnitude(",
);

/// Whose exponential, sine, angle and magnitude the source calls.
#[derive(Clone, Copy, PartialEq)]
enum Routines {
    Ours,
    Own,
}

fn source_folder(repository: &Path) -> Option<PathBuf> {
    let folder = match env::var_os("KORNIA_SRC") {
        Some(named) => PathBuf::from(named),
        None => repository.join("../shared/docs/src"),
    };
    println!("cargo::rerun-if-changed={}", folder.join(SIFT).display());
    let found = FILES
        .iter()
        .all(|f| folder.join(SIFT).join(format!("{f}.rs")).is_file());
    found.then_some(folder)
}

/// The file's text with its patches made.
fn patched(folder: &Path, file: &str, whose: Routines) -> String {
    let path = folder.join(SIFT).join(format!("{file}.rs"));
    println!("cargo::rerun-if-changed={}", path.display());
    let mut text = fs::read_to_string(&path).unwrap();
    let mut apply = |old: &str, new: &str| match text.matches(old).count() {
        1 => text = text.replacen(old, new, 1),
        n => panic!("a patch of {file}.rs must match exactly once and matches {n} times:\n{old}"),
    };
    let ours = whose == Routines::Ours;
    let routines = ROUTINES.iter().filter(|_| ours);
    for p in PATCHES.iter().chain(routines).filter(|p| p.file == file) {
        apply(p.old, p.new);
    }
    let more = [OWN_ARM].into_iter().filter(|_| !ours);
    for (_, old) in ARM_BLOCKS
        .into_iter()
        .chain(more)
        .filter(|(f, _)| *f == file)
    {
        apply(old, &old.replace(ARM, NEVER));
    }
    if let Some(at) = text.find(ARM) {
        let line = text[..at].lines().count();
        panic!("{file}.rs still has a block for {ARM}, at line {line} as patched");
    }
    text
}

fn main() {
    println!("cargo::rerun-if-env-changed=KORNIA_SRC");
    println!("cargo::rerun-if-changed=build.rs");
    let here = PathBuf::from(env::var_os("CARGO_MANIFEST_DIR").unwrap());
    let repository = here.join("../..").canonicalize().unwrap();
    let Some(folder) = source_folder(&repository) else {
        println!(
            "cargo::warning=the published Rust was not found: nothing can be compared with it (KORNIA_SRC names its folder)"
        );
        return;
    };
    println!("cargo::rustc-cfg=source_found");
    let out = PathBuf::from(env::var_os("OUT_DIR").unwrap());
    for (name, whose) in [("sift.rs", Routines::Ours), ("own.rs", Routines::Own)] {
        let module = |file| format!("pub mod {file} {{\n{}\n}}\n", patched(&folder, file, whose));
        fs::write(out.join(name), FILES.map(module).concat()).unwrap();
    }
}
