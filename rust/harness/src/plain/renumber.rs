//! Renumbering of the locals (document 02, E1).
use super::check;
use crate::Bytes;
use sorzibelu::sheet::*;

/// The locals that an instruction mentions: destinations, sources, abort local.
pub fn mentions(r: &Instruction) -> Vec<u8> {
    [&r.dsts[..], &r.srcs[..], r.abort.as_slice()].concat()
}

/// The local that each new number stands for: the user locals, then every other one that is mentioned, sorted by its first mention.
pub fn old_numbers(sheet: &Sheet) -> Vec<u8> {
    let mentioned: Vec<u8> = sheet.code.iter().flat_map(mentions).collect();
    let users = sheet.user_locals as u8;
    let first = |x: u8| mentioned.iter().position(|y| *y == x).map(|at| (at, x));
    let mut others: Vec<(usize, u8)> = (users..sheet.locals as u8).filter_map(first).collect();
    others.sort_unstable();
    (0..users).chain(others.into_iter().map(|(_, x)| x)).collect()
}

/// The renumbered sheet where enough room is lent; where less, 9 comes behind its checks and 15.
pub fn renumber(s: &[u8]) -> Result<Vec<u8>, (u16, u16)> {
    check(s)?;
    let sheet = Sheet::of_bytes(s);
    if let Some(k) = sheet.code.iter().position(|r| r.kind == CALL && (r.sub == 19 || r.sub == 20)) {
        return Err((15, k as u16));
    }
    let old = old_numbers(&sheet);
    let new = |x: &u8| old.iter().position(|y| y == x).unwrap() as u8;
    let all = |xs: &[u8]| xs.iter().map(new).collect();
    let code = sheet.code.iter().map(|r| Instruction { dsts: all(&r.dsts), srcs: all(&r.srcs), abort: r.abort.as_ref().map(new), ..r.clone() }).collect();
    let references = old.iter().enumerate().map(|(i, x)| (sheet.references >> x & 1) << i).sum();
    Ok(Sheet { locals: old.len() as u16, references, code, ..sheet }.bytes())
}
