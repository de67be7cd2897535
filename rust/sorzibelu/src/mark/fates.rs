//! What becomes of each instruction when a sheet is rewritten, and why. Only reasons: they are kept where they come to the code of the proved call.
use super::names;
use crate::{sheet::*, text::instruction};

/// The reasons of a rewriting.
#[derive(Default)]
pub(super) struct Fates {
    /// Of each instruction of the new code, empty where it stays as it was.
    pub new: Vec<String>,
    /// The instructions that are gone, and why.
    pub gone: Vec<(Instruction, String)>,
}

const DESTROY: u8 = 13;

fn bit(local: u8) -> u64 {
    1 << (local & 63)
}

impl Fates {
    /// Of an accepted sheet, its live sets (before, after) and its new code.
    pub fn new(sheet: &Sheet, sets: &[[u64; 2]], new: &[Instruction]) -> Fates {
        let mut all = Fates::default();
        let mut code = vec![];
        let mut added = vec![];
        let old = &sheet.code;
        let after = |k: usize| sets[k][1];
        let merges = |k: usize| {
            let one = old[k].kind == CALL && old[k].dsts.len() == 1;
            one && old.get(k + 1).is_some_and(|a| a.kind == ASSIGN && a.srcs == old[k].dsts) && after(k + 1) & bit(old[k].dsts[0]) == 0
        };
        let mut label = old.iter().filter(|r| r.kind == LABEL).map(|r| r.one).max().unwrap_or(0);
        let mut attr = old.iter().map(|r| r.attr).max().unwrap_or(0);
        for (k, r) in old.iter().enumerate() {
            let at = format!("offset {k} of the sheet, '{}'", instruction(r));
            if k > 0 && merges(k - 1) {
                all.gone.push((r.clone(), format!("{at}: gone, since the Call in front of it takes its destination")));
                continue;
            }
            if matches!(r.kind, LOAD | ASSIGN) && after(k) & bit(r.dsts[0]) == 0 {
                all.gone.push((r.clone(), format!("{at}: dropped, since t{} is not in after", r.dsts[0])));
                continue;
            }
            let mut r = r.clone();
            let mut why = vec![];
            if merges(k) {
                why.push(format!("the Call takes the destination of the Assign behind it, since t{} is not in after of that", r.dsts[0]));
                r.dsts = old[k + 1].dsts.clone();
            }
            if r.kind == BRANCH {
                for (edge, name) in [(&mut r.one, "then"), (&mut r.two, "else")] {
                    let Some(target) = old.iter().position(|x| x.kind == LABEL && x.one == *edge) else { return Fates::default() };
                    let lost = sheet.references & after(k) & !sets[target][0];
                    if lost == 0 {
                        continue;
                    }
                    label = label.wrapping_add(1);
                    why.push(format!("the {name} edge to L{edge} loses {}, in after here and not in before at {target}: it goes to the new label L{label}", names(lost)));
                    let destroys = (0..64).filter(|i| lost >> i & 1 == 1).map(|i| Instruction { sub: DESTROY, srcs: vec![i], ..Instruction::new(CALL) });
                    let first = Instruction { one: label, ..Instruction::new(LABEL) };
                    let last = Instruction { one: *edge, ..Instruction::new(JUMP) };
                    for x in [first].into_iter().chain(destroys).chain([last]) {
                        attr = attr.wrapping_add(1);
                        added.push((Instruction { attr, ..x }, format!("the new block of the {name} edge of the Branch at {k}, which loses {}", names(lost))));
                    }
                    *edge = label;
                }
            }
            code.push((r, if why.is_empty() { String::new() } else { format!("{at}: {}", why.join("; ")) }));
        }
        code.extend(added);
        let agrees = code.iter().map(|(r, _)| r).eq(new);
        debug_assert!(agrees, "the reasons disagree with the call rewrite");
        if !agrees {
            return Fates::default();
        }
        all.new = code.into_iter().map(|(_, why)| why).collect();
        all
    }

    /// Why an instruction of the new code is as it is.
    pub fn of(&self, i: usize) -> &str {
        self.new.get(i).map_or("", |w| w)
    }

    /// Why an instruction of an answer should not be there, where it is one that is gone.
    pub fn of_extra(&self, given: &Instruction) -> &str {
        let same = |r: &Instruction| Instruction { attr: given.attr, ..r.clone() } == *given;
        self.gone.iter().find(|(r, _)| same(r)).map_or("", |(_, why)| why)
    }
}
