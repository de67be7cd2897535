//! Sheets, live sets and dying nodes: safe calls over the proved archive (crates/c_api_c).
//!
//! A sheet is a slice of bytes, a graph three values; every call takes any slices at all, and answers as documents 01 and 02 have it. There are two
//! forms of each call:
//!
//! | asks | lent output, no allocation | as a value |
//! |---|---|---|
//! | is this a sheet? | [`check`] | [`Sheet::try_from`](sheet::Sheet) |
//! | its flow table | [`flow`] | [`blocks`] |
//! | its live sets, and blocks taken | [`live`] | [`live_sets`] |
//! | those of each sheet of a class set | [`live_class`] | [`class_live_sets`], [`class_sheets`] |
//! | its rewriting | [`rewrite`] | [`rewritten`] |
//! | it with its locals renumbered | [`renumber`] | [`renumbered`] |
//! | is a label named, only defined, or undefined? | | [`label`], [`never_named`] |
//! | its page, as text | [`page`] | [`page_text`] |
//! | its live sets, as text | [`livelist`] | [`livelist_text`] |
//! | is a node in use, is it conditional? | | [`in_use`], [`conditional`] |
//! | which nodes die? | [`dying`] | [`dying_nodes`] |
//!
//! A refusal is a number of the paper's table and a place ([`Refusal`]), and leaves what was lent as it was; on acceptance only the answer is written.
//! [`sheet::why`], [`sheet::class_why`] and [`graph::why`] say in words which field, local or label is meant.
//!
//! # Stack
//!
//! The calls allocate nothing: their arrays are on the stack. A thread of [`STACK_BYTES`] is enough for every call but [`page`], and one of
//! [`PAGE_STACK_BYTES`] for that; the main thread and the threads of `std` have more.
//!
//! | check | flow | live | live class | rewrite | renumber | label | livelist | page | in use, conditional, dying |
//! |---|---|---|---|---|---|---|---|---|---|
//! | 16.1 KiB | 19.4 KiB | 187.7 KiB | 187.8 KiB | 203.7 KiB | 49.7 KiB | 16.2 KiB | 203.7 KiB | 239.8 KiB | about 1 KiB |
#![warn(missing_docs)]
mod calls;
mod ffi;
pub mod graph;
pub mod mark;
mod owned;
mod refusal;
pub mod sheet;
mod sizes;
pub mod text;
mod why;

pub use calls::*;
pub use owned::*;
pub use refusal::Refusal;
pub use sizes::*;

/// The code of the README.
#[cfg(doctest)]
#[doc = include_str!("../../../README.md")]
mod readme {}
