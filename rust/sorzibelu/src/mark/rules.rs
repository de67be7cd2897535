//! The live rules of document 01 over a decoded sheet: what an answer's own sets are held against. The right sets come from the proved call alone.
use super::names;
use crate::{sheet::*, text::instruction};
use std::collections::HashMap;

/// Which of the two sets of an instruction.
#[derive(Clone, Copy, Debug, PartialEq, Eq, PartialOrd, Ord)]
pub enum Side {
    /// The locals that are live in front of it.
    Before,
    /// Those that are live behind it.
    After,
}

impl Side {
    /// `before` or `after`.
    ///
    /// ```
    /// assert_eq!(sorzibelu::mark::rules::Side::After.name(), "after");
    /// ```
    pub fn name(self) -> &'static str {
        match self {
            Side::Before => "before",
            Side::After => "after",
        }
    }
}

/// A set that is not what its rule gives from the sets beside it.
#[derive(Clone, Copy, Debug, PartialEq, Eq)]
pub struct Breach {
    /// The instruction.
    pub offset: usize,
    /// Which of its sets.
    pub side: Side,
    /// What the rule gives.
    pub gives: u64,
}

/// The rules of a sheet. Sets are given for every instruction, before and after, bit i for local i.
///
/// ```
/// use sorzibelu::{mark::rules::{Breach, Rules, Side}, text};
/// let sheet = text::assemble("locals 2 user 2 parameters 0 references\nt1 <- copy t0\nret t1\n").unwrap();
/// let rules = Rules::new(&sheet);
/// assert!(rules.breaches(&[[0b01, 0b10], [0b10, 0]]).is_empty());
/// assert_eq!(rules.breaches(&[[0b11, 0b10], [0b10, 0]]), [Breach { offset: 0, side: Side::Before, gives: 0b01 }]);
/// ```
#[derive(Clone, Debug)]
pub struct Rules {
    code: Vec<Instruction>,
    next: Vec<Vec<usize>>,
}

fn mask(xs: &[u8]) -> u64 {
    xs.iter().fold(0, |m, x| m | 1 << (x & 63))
}

impl Rules {
    /// Of a sheet that the checks accept.
    ///
    /// ```
    /// use sorzibelu::{mark::rules::Rules, text};
    /// let rules = Rules::new(&text::assemble("locals 1 user 1 parameters 0 references\nlabel L1\nbranch L1 L2 on t0\nlabel L2\nret\n").unwrap());
    /// assert_eq!(rules.len(), 4);
    /// assert_eq!(rules.successors(1), [0, 2]);
    /// // the Branch reads t0
    /// assert_eq!(rules.before(1, 0), 0b1);
    /// assert_eq!(rules.after(0, &[[0, 0], [0b1, 0], [0, 0], [0, 0]]), 0b1);
    /// ```
    pub fn new(sheet: &Sheet) -> Rules {
        let code = sheet.code.clone();
        let at: HashMap<u16, usize> = code.iter().enumerate().filter(|(_, r)| r.kind == LABEL).map(|(k, r)| (r.one, k)).collect();
        let label = |l: u16| at.get(&l).copied();
        let next = code.iter().enumerate().map(|(k, r)| {
            let exit = matches!(r.kind, RET | ABORT) || r.kind == CALL && r.sub == STOP;
            let mut all: Vec<usize> = match r.kind {
                _ if exit => vec![],
                BRANCH => label(r.one).into_iter().chain(label(r.two)).collect(),
                JUMP => label(r.one).into_iter().collect(),
                CALL if r.abort.is_some() => label(r.one).into_iter().chain([k + 1]).collect(),
                _ => vec![k + 1],
            };
            all.sort_unstable();
            all.dedup();
            all.retain(|s| *s < code.len());
            all
        });
        Rules { next: next.collect(), code: code.clone() }
    }

    /// How many instructions.
    #[allow(clippy::len_without_is_empty)]
    pub fn len(&self) -> usize {
        self.code.len()
    }

    /// The offsets that come behind an instruction, ascending.
    pub fn successors(&self, k: usize) -> &[usize] {
        &self.next[k]
    }

    /// What the instruction's rule makes of the set after it.
    pub fn before(&self, k: usize, after: u64) -> u64 {
        let r = &self.code[k];
        match r.kind {
            ASSIGN if after & mask(&r.dsts) != 0 => after & !mask(&r.dsts) | mask(&r.srcs),
            ASSIGN => after,
            LOAD => after & !mask(&r.dsts),
            CALL => (after & !mask(&r.dsts) | mask(&r.srcs)) & !r.abort.map_or(0, |a| mask(&[a])),
            RET | ABORT | BRANCH | PROP => after | mask(&r.srcs),
            _ => after,
        }
    }

    /// The union of the successors' sets before.
    pub fn after(&self, k: usize, sets: &[[u64; 2]]) -> u64 {
        self.next[k].iter().fold(0, |m, s| m | sets[*s][0])
    }

    /// The locals before the instruction that can depend on these ones after it.
    pub(super) fn carried(&self, k: usize, after: u64) -> u64 {
        let r = &self.code[k];
        match r.kind {
            ASSIGN if after & mask(&r.dsts) != 0 => after | mask(&r.srcs),
            _ => after,
        }
    }

    /// What the rule of the instruction is, in words.
    pub(super) fn words(&self, k: usize, side: Side, sets: &[[u64; 2]]) -> String {
        let r = &self.code[k];
        if side == Side::After {
            return match &self.next[k][..] {
                [] => "nothing comes behind it, so after is empty".into(),
                [s] => format!("after is before at {s}"),
                all => format!("after is the union of before at {}", all.iter().map(usize::to_string).collect::<Vec<_>>().join(" and ")),
            };
        }
        let out = (!r.dsts.is_empty()).then(|| format!("{} out", names(mask(&r.dsts))));
        let into = (!r.srcs.is_empty()).then(|| format!("{} in", names(mask(&r.srcs))));
        let abort = r.abort.map(|a| format!("then t{a} out"));
        let steps: Vec<String> = match r.kind {
            ASSIGN if sets[k][1] & mask(&r.dsts) == 0 => vec![format!("{} is not in after, so no change", names(mask(&r.dsts)))],
            ASSIGN => [Some(format!("{} is in after", names(mask(&r.dsts)))), out, into].into_iter().flatten().collect(),
            CALL | LOAD | RET | ABORT | BRANCH | PROP => [out, into, abort].into_iter().flatten().collect(),
            _ => vec![],
        };
        let steps = if steps.is_empty() { "no change".into() } else { steps.join(", ") };
        format!("'{}': {steps}", instruction(r))
    }

    /// Every set that is not what its rule gives, by offset, before in front of after. None where the sets obey.
    pub fn breaches(&self, sets: &[[u64; 2]]) -> Vec<Breach> {
        let mut all = vec![];
        for (offset, [before, after]) in sets.iter().enumerate() {
            for (side, set, gives) in [(Side::Before, before, self.before(offset, *after)), (Side::After, after, self.after(offset, sets))] {
                if *set != gives {
                    all.push(Breach { offset, side, gives });
                }
            }
        }
        all
    }
}
