//! Why a block starts at an offset or does not, and what a common misreading of the keys gives. Only reasons: the table comes from the proved call.
use super::flow::Row;
use crate::sheet::*;
use std::collections::HashMap;

/// The code of an accepted sheet, and who names each label first.
pub(super) struct Starts {
    code: Vec<Instruction>,
    named: HashMap<u16, usize>,
}

/// What an instruction that ends a block is called.
fn ends(r: &Instruction) -> Option<&'static str> {
    match r.kind {
        BRANCH => Some("Branch"),
        JUMP => Some("Jump"),
        RET => Some("Ret"),
        ABORT => Some("Abort"),
        CALL if r.sub == STOP => Some("Stop"),
        CALL if r.abort.is_some() => Some("Call with an abort action"),
        _ => None,
    }
}

impl Starts {
    pub fn new(sheet: &Sheet) -> Starts {
        let mut named = HashMap::new();
        for (k, r) in sheet.code.iter().enumerate() {
            for label in r.names() {
                named.entry(label).or_insert(k);
            }
        }
        Starts { code: sheet.code.clone(), named }
    }

    /// Why a block starts at an offset, or why none does; empty past the end.
    pub fn why(&self, k: usize) -> String {
        let Some(r) = self.code.get(k) else { return String::new() };
        let before = k.checked_sub(1).map(|b| (b, ends(&self.code[b])));
        match (r.kind, self.named.get(&r.one), before) {
            (_, _, None) => "the first block starts at 0".into(),
            (LABEL, Some(by), _) => format!("a block starts at {k}: label L{} is named at {by}", r.one),
            (_, _, Some((b, Some(what)))) => format!("a block starts at {k}: the {what} at {b} ends one"),
            (LABEL, None, _) => format!("no block starts at {k}: no Branch, Jump or Call with an abort action names label L{}", r.one),
            _ => format!("no block starts at {k}: the instruction at {} ends none", k - 1),
        }
    }
}

/// The keys where each block takes its own before its successors, by offset: a misreading.
pub(super) fn own_key_first(right: &[Row]) -> Vec<usize> {
    let place: HashMap<usize, usize> = right.iter().enumerate().map(|(i, r)| (r.key, i)).collect();
    let mut keys = vec![0; right.len()];
    let mut next = 2;
    for (i, r) in right.iter().enumerate() {
        for j in [Some(i)].into_iter().chain(r.next.iter().map(|k| place.get(k).copied())).flatten() {
            if keys[j] == 0 {
                keys[j] = next;
                next += 1;
            }
        }
    }
    keys
}
