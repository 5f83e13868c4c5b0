//! The command-line tool `bargeclover`: from a frame to a sheet of keypoints, and tables and pictures of it. The proved library does
//! the work on keypoints and sheets; this crate reads frames, makes the planes, and prints and draws. Nothing in it is trusted.

pub mod args;
pub mod audit;
pub mod canvas;
pub mod commands;
pub mod cover;
pub mod describe;
pub mod difference;
pub mod draw;
pub mod extract;
pub mod fault;
pub mod files;
pub mod find;
pub mod fit;
pub mod font;
pub mod help;
pub mod look;
pub mod patch;
pub mod pgm;
pub mod png;
pub mod points;
pub mod progress;
pub mod pyramid;
pub mod svg;
pub mod table;
pub mod trouble;

pub use trouble::Trouble;
