//! Listing: the text of an instruction, and of a sheet.
use super::names::*;
use crate::sheet::*;
use std::fmt::Write;

/// One instruction that keeps to the table of kinds, without payload and attribute id where they are 0.
///
/// ```
/// use sorzibelu::{sheet::*, text};
/// let not = Instruction { sub: 28, dsts: vec![1], srcs: vec![0], attr: 7, ..Instruction::new(CALL) };
/// assert_eq!(text::instruction(&not), "t1 <- call Not t0 @7");
/// ```
pub fn instruction(r: &Instruction) -> String {
    let mut s = String::new();
    let locals = |s: &mut String, xs: &[u8]| xs.iter().for_each(|x| write!(s, " t{x}").unwrap());
    let name = |names: &[&'static str]| names.get(r.sub as usize).copied().unwrap_or("?");
    if matches!(r.kind, ASSIGN | CALL | LOAD) && !r.dsts.is_empty() {
        locals(&mut s, &r.dsts);
        s.remove(0);
        s.push_str(" <- ");
    }
    match r.kind {
        ASSIGN => s.push_str(name(&ASSIGNS)),
        CALL => write!(s, "call {}", name(&OPERATIONS)).unwrap(),
        RET => s.push_str("ret"),
        LOAD => write!(s, "load {}", name(&CONSTANTS)).unwrap(),
        BRANCH => write!(s, "branch L{} L{} on", r.one, r.two).unwrap(),
        JUMP => write!(s, "jump L{}", r.one).unwrap(),
        LABEL => write!(s, "label L{}", r.one).unwrap(),
        ABORT => s.push_str("abort"),
        NOP => s.push_str("nop"),
        SAVE_MEM => s.push_str("savemem"),
        SAVE_SPEC_VAR => s.push_str("savespecvar"),
        _ => write!(s, "prop {}", name(&PROPS)).unwrap(),
    }
    locals(&mut s, &r.srcs);
    if let Some(local) = r.abort {
        write!(s, " abort L{} into t{local}", r.one).unwrap();
    }
    if r.payload != 0 {
        write!(s, " #{}", r.payload).unwrap();
    }
    if r.attr != 0 {
        write!(s, " @{}", r.attr).unwrap();
    }
    s
}

/// The heading's line, without its end.
pub(crate) fn heading(locals: u16, user: u16, parameters: u16, references: u64) -> String {
    let mut s = format!("locals {locals} user {user} parameters {parameters} references");
    (0..64).filter(|i| references >> i & 1 == 1).for_each(|i| write!(s, " t{i}").unwrap());
    s
}

/// The text of a sheet that the checks accept.
///
/// ```
/// let text = "locals 2 user 2 parameters 0 references t1\nt0 <- load U64 #9\nret t0 @3\n";
/// let sheet = sorzibelu::text::assemble(text).unwrap();
/// assert_eq!(sorzibelu::text::list(&sheet), text);
/// ```
pub fn list(sheet: &Sheet) -> String {
    let mut s = heading(sheet.locals, sheet.user_locals, sheet.parameters, sheet.references);
    s.push('\n');
    for r in &sheet.code {
        s.push_str(&instruction(r));
        s.push('\n');
    }
    s
}
