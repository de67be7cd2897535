//! Documents 01 and 02 read word for word into plain Rust: what the proved calls are compared with where the original Rust says nothing.
mod check;
mod class;
mod graphs;
mod label;
mod live;
mod renumber;
mod rewrite;

pub use check::{CHECKS, check, rank};
pub use class::{Alone, Class, SHEET_NUMBERS, SHEET_SETS, alone, cut, lay_out, live_class, sheets};
pub use graphs::{check_graphs, conditional, dying, in_use};
pub use label::{label, labels, lookup, never_named, packed};
pub use live::{Blocks, blocks, ends_block, execute, flow, live, set_bytes};
pub use renumber::{mentions, old_numbers, renumber};
pub use rewrite::{Rewriting, rewrite, rewriting};
