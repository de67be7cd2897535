//! Why a call was turned away: the rows of document 01's tables and what document 02 adds to them, each with its number and place.
use std::fmt;

/// A row of the tables of refusals. What a variant holds is its place: a block, an offset, or a place in a graph.
#[derive(Clone, Copy, Debug, PartialEq, Eq, Hash)]
#[non_exhaustive]
pub enum Refusal {
    /// 1: the length is no multiple of 512, below 1,024 or above 35,840; a class set's is zero or no multiple of 512.
    Length,
    /// 2: the block's number or check is wrong, or bytes 4 to 31 of a later block are not zero.
    Block(u16),
    /// 3: the heading breaks its layout, or the block count does not fit its instruction count.
    Heading,
    /// 4: the record breaks the table of kinds, or is past the last instruction and not zero.
    Record(u16),
    /// 5: a listed or flagged abort local is not below the count of locals.
    Local(u16),
    /// 6: the Label repeats an earlier Label's number.
    RepeatedLabel(u16),
    /// 7: a label is named that no Label has.
    MissingLabel(u16),
    /// 8: the last instruction can fall past the end.
    FallsPastEnd(u16),
    /// 9: the lent output is too short.
    ShortOutput,
    /// 10: the rewriting needs a label or an attribute id above 65,535.
    NumbersRunOut,
    /// 11: the rewritten code would exceed 1,024 instructions.
    CodeTooLong,
    /// 12: a graph has more than 64 nodes, or a live bit at or above its node count; 0 for the first graph, 1 for the second.
    Nodes(u16),
    /// 13: a graph's list has a wrong length (300) or a wrong triple (its index); 1,000 more for the second graph.
    Triple(u16),
    /// 14: the asked node is not below the node count.
    AskedNode,
    /// 15: the IsParent or WriteBack hides a local in its payload, where renumbering does not reach it.
    HiddenLocal(u16),
    /// 16: the number of a class set's first block is not 0.
    FirstBlock,
    /// 17: a class set has more than 16 sheets.
    TooManySheets,
    /// 18: the Stop has an abort action; looked for behind 4 and before 5.
    FlaggedStop(u16),
    /// A number that this version does not know, and its place: the archive is newer than the crate.
    Other(u16, u16),
}

use Refusal::*;

impl Refusal {
    /// The refusal of a number and a place of the tables.
    pub fn of(number: u16, place: u16) -> Refusal {
        match number {
            1 => Length,
            2 => Block(place),
            3 => Heading,
            4 => Record(place),
            5 => Local(place),
            6 => RepeatedLabel(place),
            7 => MissingLabel(place),
            8 => FallsPastEnd(place),
            9 => ShortOutput,
            10 => NumbersRunOut,
            11 => CodeTooLong,
            12 => Nodes(place),
            13 => Triple(place),
            14 => AskedNode,
            15 => HiddenLocal(place),
            16 => FirstBlock,
            17 => TooManySheets,
            18 => FlaggedStop(place),
            _ => Other(number, place),
        }
    }

    /// The number of its row.
    pub fn number(self) -> u16 {
        match self {
            Length => 1,
            Block(_) => 2,
            Heading => 3,
            Record(_) => 4,
            Local(_) => 5,
            RepeatedLabel(_) => 6,
            MissingLabel(_) => 7,
            FallsPastEnd(_) => 8,
            ShortOutput => 9,
            NumbersRunOut => 10,
            CodeTooLong => 11,
            Nodes(_) => 12,
            Triple(_) => 13,
            AskedNode => 14,
            HiddenLocal(_) => 15,
            FirstBlock => 16,
            TooManySheets => 17,
            FlaggedStop(_) => 18,
            Other(number, _) => number,
        }
    }

    /// Its place, 0 where the row has none.
    pub fn place(self) -> u16 {
        match self {
            Length | Heading | ShortOutput | NumbersRunOut | CodeTooLong | AskedNode | FirstBlock | TooManySheets => 0,
            Block(p) | Record(p) | Local(p) | RepeatedLabel(p) | MissingLabel(p) | FallsPastEnd(p) | Nodes(p) | Triple(p) | HiddenLocal(p) | FlaggedStop(p) => p,
            Other(_, place) => place,
        }
    }
}

/// `refused 7 1: offset 1: a label is named that no Label has`.
impl fmt::Display for Refusal {
    fn fmt(&self, f: &mut fmt::Formatter<'_>) -> fmt::Result {
        write!(f, "refused {} {}: ", self.number(), self.place())?;
        match *self {
            Length => write!(f, "the length is no multiple of 512, below 1,024 or above 35,840"),
            Block(p) => write!(f, "block {p}: its number or check is wrong, or its bytes 4 to 31 are not zero"),
            Heading => write!(f, "the heading breaks its layout, or the block count does not fit its instruction count"),
            Record(p) => write!(f, "offset {p}: the record breaks the table of kinds, or is past the last instruction and not zero"),
            Local(p) => write!(f, "offset {p}: a local is not below the count of locals"),
            RepeatedLabel(p) => write!(f, "offset {p}: the Label repeats an earlier Label's number"),
            MissingLabel(p) => write!(f, "offset {p}: a label is named that no Label has"),
            FallsPastEnd(p) => write!(f, "offset {p}: the last instruction can fall past the end"),
            ShortOutput => write!(f, "the lent output is too short"),
            NumbersRunOut => write!(f, "a new label or attribute id would be above 65,535"),
            CodeTooLong => write!(f, "the rewritten code would exceed 1,024 instructions"),
            Nodes(p) => write!(f, "graph {}: more than 64 nodes, or a live bit at or above the node count", p + 1),
            Triple(p) if p % 1000 == 300 => write!(f, "graph {}: the list's length is no multiple of three or above 256 triples", p / 1000 + 1),
            Triple(p) => write!(f, "graph {}, triple {}: a node is not below the count, or the triple is not above the one before it", p / 1000 + 1, p % 1000),
            AskedNode => write!(f, "the asked node is not below the node count"),
            HiddenLocal(p) => write!(f, "offset {p}: an IsParent or WriteBack hides a local in its payload, where renumbering does not reach it"),
            FirstBlock => write!(f, "the number of the first block is not 0"),
            TooManySheets => write!(f, "a class set has more than 16 sheets"),
            FlaggedStop(p) => write!(f, "offset {p}: a Stop has an abort action"),
            Other(..) => write!(f, "a number that this version does not know"),
        }
    }
}

impl std::error::Error for Refusal {}
