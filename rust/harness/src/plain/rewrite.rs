//! Rewriting.
use super::{check, live};
use crate::Bytes;
use sorzibelu::sheet::*;

/// Rewritten code before numbers and lengths are looked at.
pub struct Rewriting {
    /// What is left of the code.
    pub kept: Vec<Instruction>,
    /// The blocks at the end: Label, Destroys, Jump.
    pub added: Vec<Instruction>,
    /// The highest Label and attribute id, old or new.
    pub label: usize,
    pub attr: usize,
}

/// Of accepted code.
pub fn rewriting(sheet: &Sheet) -> Rewriting {
    let code = &sheet.code;
    let (sets, _) = live(code);
    let in_after = |k: usize, local: u8| sets[k].1 >> local & 1 == 1;
    // a Call with one destination d, directly before an Assign from d with d not in the Assign's after
    let merges = |k: usize| {
        let one = code[k].kind == CALL && code[k].dsts.len() == 1;
        one && code.get(k + 1).is_some_and(|a| a.kind == ASSIGN && a.srcs == code[k].dsts) && !in_after(k + 1, code[k].dsts[0])
    };
    let dropped = |k: usize| matches!(code[k].kind, LOAD | ASSIGN) && !in_after(k, code[k].dsts[0]);
    let target = |label: u16| code.iter().position(|r| r.kind == LABEL && r.one == label).unwrap();
    let mut w = Rewriting {
        kept: vec![],
        added: vec![],
        label: code.iter().filter(|r| r.kind == LABEL).map(|r| r.one as usize).max().unwrap_or(0),
        attr: code.iter().map(|r| r.attr as usize).max().unwrap_or(0),
    };
    for k in 0..code.len() {
        if dropped(k) || k > 0 && merges(k - 1) {
            continue;
        }
        let mut r = code[k].clone();
        if merges(k) {
            r.dsts = code[k + 1].dsts.clone();
        }
        if r.kind == BRANCH {
            for edge in [&mut r.one, &mut r.two] {
                let lost = sheet.references & sets[k].1 & !sets[target(*edge)].0;
                if lost != 0 {
                    w.label += 1;
                    let destroy = |i: u8| Instruction { sub: 13, srcs: vec![i], ..Instruction::new(CALL) };
                    let label = Instruction { one: w.label as u16, ..Instruction::new(LABEL) };
                    let jump = Instruction { one: *edge, ..Instruction::new(JUMP) };
                    let destroys = (0..64).filter(|i| lost >> i & 1 == 1).map(destroy);
                    for new in [label].into_iter().chain(destroys).chain([jump]) {
                        w.attr += 1;
                        w.added.push(Instruction { attr: w.attr as u16, ..new });
                    }
                    *edge = w.label as u16;
                }
            }
        }
        w.kept.push(r);
    }
    w
}

/// The rewritten sheet where enough room is lent; where less, 9 comes behind its checks and before 10 and 11.
pub fn rewrite(s: &[u8]) -> Result<Vec<u8>, (u16, u16)> {
    check(s)?;
    let sheet = Sheet::of_bytes(s);
    let w = rewriting(&sheet);
    if !w.added.is_empty() && (w.label > 65_535 || w.attr > 65_535) {
        return Err((10, 0));
    }
    if w.kept.len() + w.added.len() > 1024 {
        return Err((11, 0));
    }
    Ok(Sheet { code: [w.kept, w.added].concat(), ..sheet }.bytes())
}
