//! Every size that a caller needs, as documents 01 and 02 have them.

/// The most instructions that a sheet has.
pub const MAX_INSTRUCTIONS: usize = 1_024;
/// The most locals that a sheet has.
pub const MAX_LOCALS: usize = 64;
/// The most destinations, and the most sources, of one instruction.
pub const MAX_LIST: usize = 8;
/// The shortest sheet.
pub const MIN_SHEET_BYTES: usize = 1_024;
/// The longest sheet; a [`rewrite`](crate::rewrite) is lent so many bytes, and for a [`renumber`](crate::renumber) they are always enough.
pub const MAX_SHEET_BYTES: usize = 35_840;
/// What [`flow`](crate::flow) writes for one block.
pub const NUMBERS_PER_BLOCK: usize = 6;
/// Enough for every flow table.
pub const FLOW_NUMBERS: usize = NUMBERS_PER_BLOCK * MAX_INSTRUCTIONS;
/// What [`live`](crate::live) writes for one instruction.
pub const BYTES_PER_INSTRUCTION: usize = 16;
/// Enough for the live sets of every sheet; what [`live_class`](crate::live_class) is lent for each.
pub const LIVE_BYTES: usize = BYTES_PER_INSTRUCTION * MAX_INSTRUCTIONS;
/// The most sheets of a class set.
pub const MAX_CLASS_SHEETS: usize = 16;
/// What [`live_class`](crate::live_class) writes for each sheet: number, place, and how many blocks were taken.
pub const NUMBERS_PER_SHEET: usize = 3;
/// The most nodes of a borrow graph; [`dying`](crate::dying) lists each once at most.
pub const MAX_NODES: usize = 64;
/// The most triples of a borrow graph.
pub const MAX_TRIPLES: usize = 256;
/// What [`page`](crate::page) is lent: no page is longer.
pub const PAGE_BYTES: usize = 979_630;
/// What [`livelist`](crate::livelist) is lent: no list of live sets is longer.
pub const LIVELIST_BYTES: usize = 39_953;

/// The stack that a thread needs for every call but [`page`](crate::page).
pub const STACK_BYTES: usize = 256 << 10;
/// The stack that a thread needs for [`page`](crate::page).
pub const PAGE_STACK_BYTES: usize = 512 << 10;
