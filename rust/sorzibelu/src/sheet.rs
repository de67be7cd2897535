//! A sheet as plain values, and its bytes.
//!
//! ```
//! use sorzibelu::sheet::*;
//! let ret = Instruction { srcs: vec![0], ..Instruction::new(RET) };
//! let m1 = Sheet { locals: 1, user_locals: 1, parameters: 1, references: 0, code: vec![ret] };
//! let bytes = Vec::try_from(&m1)?;
//! assert_eq!(sorzibelu::check(&bytes), Ok(()));
//! assert_eq!(Sheet::try_from(&bytes[..])?, m1);
//! # Ok::<(), Box<dyn std::error::Error>>(())
//! ```
use crate::{check, Refusal, MAX_INSTRUCTIONS, MAX_LIST, MAX_SHEET_BYTES};
use std::fmt;

pub use crate::why::{class as class_why, sheet as why};

/// Bytes of a block.
pub const BLOCK: usize = 512;
/// Bytes of a record.
pub const RECORD: usize = 32;
/// Records of a block.
pub const PER_BLOCK: usize = 15;
/// Bytes of the longest sheet.
pub const MAX_BYTES: usize = MAX_SHEET_BYTES;

/// Kind Assign: sub 0 Copy, 1 Move, 2 Store; one destination, one source.
pub const ASSIGN: u8 = 0;
/// Kind Call: sub is the operation's place in `Operation`; both lists, payload; with an abort action, which a Stop may not have, also label one and the abort local.
pub const CALL: u8 = 1;
/// Kind Ret: sources.
pub const RET: u8 = 2;
/// Kind Load: sub is the constant's place in `Constant`; one destination, payload.
pub const LOAD: u8 = 3;
/// Kind Branch: label one then, label two else, one source.
pub const BRANCH: u8 = 4;
/// Kind Jump: label one.
pub const JUMP: u8 = 5;
/// Kind Label: label one.
pub const LABEL: u8 = 6;
/// Kind Abort: one source.
pub const ABORT: u8 = 7;
/// Kind Nop.
pub const NOP: u8 = 8;
/// Kind SaveMem: payload.
pub const SAVE_MEM: u8 = 9;
/// Kind SaveSpecVar: payload.
pub const SAVE_SPEC_VAR: u8 = 10;
/// Kind Prop: sub 0 to 2, sources (the locals that its expression uses), payload.
pub const PROP: u8 = 11;

/// The sub of the Call that ends a function: the operation Stop.
pub const STOP: u8 = 18;

/// One instruction.
#[derive(Clone, Debug, Default, PartialEq, Eq)]
pub struct Instruction {
    /// [`ASSIGN`] to [`PROP`].
    pub kind: u8,
    /// Which Assign, operation, constant or Prop.
    pub sub: u8,
    /// The attribute id, free in every kind.
    pub attr: u16,
    /// Label one.
    pub one: u16,
    /// Label two.
    pub two: u16,
    /// Destinations, 8 at most.
    pub dsts: Vec<u8>,
    /// Sources, 8 at most.
    pub srcs: Vec<u8>,
    /// The abort local of a flagged Call; its label is `one`.
    pub abort: Option<u8>,
    /// Never interpreted.
    pub payload: u32,
}

impl Instruction {
    /// An instruction of a kind, all other fields 0.
    pub fn new(kind: u8) -> Instruction {
        Instruction { kind, ..Default::default() }
    }

    /// The labels that it names: then and else of a Branch, that of a Jump, that of a Call's abort action.
    ///
    /// ```
    /// use sorzibelu::sheet::*;
    /// let branch = Instruction { one: 7, two: 8, srcs: vec![0], ..Instruction::new(BRANCH) };
    /// assert!(branch.names().eq([7, 8]));
    /// assert_eq!(Instruction::new(CALL).names().next(), None);
    /// ```
    pub fn names(&self) -> impl Iterator<Item = u16> + use<> {
        let count = match self.kind {
            BRANCH => 2,
            JUMP => 1,
            CALL => usize::from(self.abort.is_some()),
            _ => 0,
        };
        [self.one, self.two].into_iter().take(count)
    }
}

/// More than a sheet has room for: destinations or sources above 8, or instructions above 1,024.
#[derive(Clone, Copy, Debug, PartialEq, Eq)]
pub enum TooLong {
    /// So many destinations.
    Destinations(usize),
    /// So many sources.
    Sources(usize),
    /// So many instructions.
    Instructions(usize),
}

impl fmt::Display for TooLong {
    fn fmt(&self, f: &mut fmt::Formatter<'_>) -> fmt::Result {
        match self {
            TooLong::Destinations(n) => write!(f, "{n} destinations: a record has room for 8"),
            TooLong::Sources(n) => write!(f, "{n} sources: a record has room for 8"),
            TooLong::Instructions(n) => write!(f, "{n} instructions: a sheet has room for 1,024"),
        }
    }
}

impl std::error::Error for TooLong {}

/// The record of an instruction.
///
/// ```
/// use sorzibelu::sheet::*;
/// let long = Instruction { srcs: vec![0; 9], ..Instruction::new(RET) };
/// assert_eq!(<[u8; RECORD]>::try_from(&long), Err(TooLong::Sources(9)));
/// ```
impl TryFrom<&Instruction> for [u8; RECORD] {
    type Error = TooLong;

    fn try_from(i: &Instruction) -> Result<[u8; RECORD], TooLong> {
        let (dsts, srcs) = (i.dsts.len(), i.srcs.len());
        if dsts > MAX_LIST {
            return Err(TooLong::Destinations(dsts));
        }
        if srcs > MAX_LIST {
            return Err(TooLong::Sources(srcs));
        }
        let mut r = [0; RECORD];
        r[0] = i.kind;
        r[1] = i.sub;
        r[2..4].copy_from_slice(&i.attr.to_le_bytes());
        r[4..6].copy_from_slice(&i.one.to_le_bytes());
        r[6..8].copy_from_slice(&i.two.to_le_bytes());
        r[8] = dsts as u8;
        r[9] = srcs as u8;
        if let Some(local) = i.abort {
            r[10] = 1;
            r[11] = local;
        }
        r[12..12 + dsts].copy_from_slice(&i.dsts);
        r[20..20 + srcs].copy_from_slice(&i.srcs);
        r[28..].copy_from_slice(&i.payload.to_le_bytes());
        Ok(r)
    }
}

/// The instruction of a record, where both counts are 8 at most. Fields that its kind does not use are read as they stand, list places past
/// their count and an abort local without flag are left out.
impl TryFrom<&[u8; RECORD]> for Instruction {
    type Error = TooLong;

    fn try_from(r: &[u8; RECORD]) -> Result<Instruction, TooLong> {
        let u16_at = |at: usize| u16::from_le_bytes([r[at], r[at + 1]]);
        let (dsts, srcs) = (r[8] as usize, r[9] as usize);
        Ok(Instruction {
            kind: r[0],
            sub: r[1],
            attr: u16_at(2),
            one: u16_at(4),
            two: u16_at(6),
            dsts: r[12..20].get(..dsts).ok_or(TooLong::Destinations(dsts))?.to_vec(),
            srcs: r[20..28].get(..srcs).ok_or(TooLong::Sources(srcs))?.to_vec(),
            abort: (r[10] == 1).then_some(r[11]),
            payload: u32::from_le_bytes([r[28], r[29], r[30], r[31]]),
        })
    }
}

/// A heading and its instructions.
#[derive(Clone, Debug, Default, PartialEq, Eq)]
pub struct Sheet {
    /// How many locals, 64 at most.
    pub locals: u16,
    /// How many of them are the user's, the first ones.
    pub user_locals: u16,
    /// How many of those are parameters, the first ones.
    pub parameters: u16,
    /// Bit i set where local i is a reference.
    pub references: u64,
    /// The instructions, by offset.
    pub code: Vec<Instruction>,
}

/// The bytes of a sheet, every block with its number and check. The checks still decide whether it is accepted.
impl TryFrom<&Sheet> for Vec<u8> {
    type Error = TooLong;

    fn try_from(sheet: &Sheet) -> Result<Vec<u8>, TooLong> {
        let n = sheet.code.len();
        if n > MAX_INSTRUCTIONS {
            return Err(TooLong::Instructions(n));
        }
        let mut s = vec![0; BLOCK * (1 + n.div_ceil(PER_BLOCK))];
        s[4..6].copy_from_slice(&(n as u16).to_le_bytes());
        s[6..8].copy_from_slice(&sheet.locals.to_le_bytes());
        s[8..10].copy_from_slice(&sheet.user_locals.to_le_bytes());
        s[10..12].copy_from_slice(&sheet.parameters.to_le_bytes());
        s[16..24].copy_from_slice(&sheet.references.to_le_bytes());
        for (k, i) in sheet.code.iter().enumerate() {
            s[record_start(k)..][..RECORD].copy_from_slice(&<[u8; RECORD]>::try_from(i)?);
        }
        seal(&mut s);
        Ok(s)
    }
}

/// Of the bytes of a sheet that the checks accept.
///
/// ```
/// use sorzibelu::{sheet::Sheet, Refusal};
/// assert_eq!(Sheet::try_from(&[0; 1024][..]), Err(Refusal::Block(1)));
/// ```
impl TryFrom<&[u8]> for Sheet {
    type Error = Refusal;

    fn try_from(s: &[u8]) -> Result<Sheet, Refusal> {
        check(s)?;
        let u16_at = |at: usize| u16::from_le_bytes([s[at], s[at + 1]]);
        let record = |k: usize| s[record_start(k)..].first_chunk().and_then(|r| Instruction::try_from(r).ok()).ok_or(Refusal::Record(k as u16));
        Ok(Sheet {
            locals: u16_at(6),
            user_locals: u16_at(8),
            parameters: u16_at(10),
            references: s[16..24].iter().rev().fold(0, |m, b| m << 8 | u64::from(*b)),
            code: (0..u16_at(4) as usize).map(record).collect::<Result<_, _>>()?,
        })
    }
}

/// Where the record of offset k starts.
pub fn record_start(k: usize) -> usize {
    BLOCK * (1 + k / PER_BLOCK) + 32 + RECORD * (k % PER_BLOCK)
}

/// Writes every block's number and check; bytes past the last whole block stay as they are.
pub fn seal(s: &mut [u8]) {
    for (b, block) in s.chunks_exact_mut(BLOCK).enumerate() {
        block[..2].copy_from_slice(&(b as u16).to_le_bytes());
        let check = sum(block);
        block[2..4].copy_from_slice(&check.to_le_bytes());
    }
}

/// The check that a block should have: the sum of its other bytes modulo 65,536.
pub(crate) fn sum(block: &[u8]) -> u16 {
    block.iter().enumerate().filter(|(at, _)| *at != 2 && *at != 3).fold(0, |sum: u16, (_, x)| sum.wrapping_add(u16::from(*x)))
}
