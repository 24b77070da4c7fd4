//! The Rust side of Yarnuskel: the original as judge, a reference answerer, generators, the
//! stored answers, the doors of the proved library and the benchmarks.

pub mod answerer;
pub mod bench;
#[cfg(proved)]
pub mod beside;
pub mod cases;
#[cfg(proved)]
pub mod door;
pub mod dot;
pub mod flow;
pub mod generate;
pub mod interference;
pub mod judge;
pub mod listing;
#[cfg(original)]
pub mod original;
pub mod random;
pub mod reader;
pub mod reading;
pub mod saved;
pub mod sides;
pub mod stack;
#[cfg(original)]
mod stand_ins;
pub mod store;
pub mod text;
pub mod worst;

// The cut text names these at the root.
#[cfg(original)]
use stand_ins::{analysis, ast, cfg, given, ir, visit};
