//! Sheets: every call beside the original and the plain reading.
use crate::judge::*;
use harness::{Bytes, lent::lend, oracle::*, plain};
use sorzibelu::{Lookup, check, flow, label, live, renumber, rewrite, sheet::*, text};
use std::collections::BTreeSet;

impl Run {
    /// All calls on one sheet, beside the plain reading's checks and, where these accept it, the answers of the original.
    pub fn judge(&mut self, s: &[u8], plain: Answered<()>, answers: &[Answer]) -> Result<(), String> {
        same("check; here the proved call, there the plain reading", check(s).map_err(pair), plain)?;
        self.turn += 1;
        let turn = self.turn;
        if let Err(r) = plain {
            // now nothing is lent, now enough for any sheet, mostly a little
            let room = |enough: usize| if turn.is_multiple_of(16) { enough } else { turn % 100 };
            same("flow", lend(room(6_144), turn, |b| 6 * b as usize, |t| flow(s, t))?.0, Err(r))?;
            same("live", lend(room(16_384), turn, |_| 0, |t| live(s, t))?.0, Err(r))?;
            same("rewrite", lend(room(MAX_BYTES), turn, |b| b as usize, |t| rewrite(s, t))?.0, Err(r))?;
            same("renumber", lend(room(s.len()), turn, |b| b as usize, |t| renumber(s, t))?.0, Err(r))?;
            same("label", label(s, turn as u32).map_err(pair), Err(r))?;
            return Ok(());
        }
        let sheet = Sheet::of_bytes(s);
        let n = sheet.code.len();

        let there = theirs(&answers[0]);
        same_as("flow; here the plain reading, there the original", Ok(bytes(&plain::flow(&sheet.code))), there.clone(), show_table)?;
        let blocks = there.as_ref().map_or(0, |t| t.len() / 12);
        for (room, wanted) in self.rooms(6 * blocks, &there) {
            let (answer, wrote) = lend(room, turn, |b| 6 * b as usize, |t| flow(s, t))?;
            same_as(&format!("flow, {room} numbers lent"), answer.map(|_| bytes(&wrote)), wanted, show_table)?;
        }

        let there = theirs(&answers[1]);
        let (sets, taken) = plain::live(&sheet.code);
        let with_count = |sets: Vec<u8>, taken: u32| [sets, taken.to_le_bytes().to_vec()].concat();
        same_as("live; here the plain reading, there the original", Ok(with_count(plain::set_bytes(&sets), taken)), there.clone(), show_sets)?;
        for (room, wanted) in self.rooms(16 * n, &there) {
            let (answer, wrote) = lend(room, turn, |_| 16 * n, |t| live(s, t))?;
            same_as(&format!("live, {room} bytes lent"), answer.map(|taken| with_count(wrote, taken)), wanted, show_sets)?;
        }

        let new = theirs(&answers[2]);
        same_as("rewrite; here the plain reading, there the original", plain::rewrite(s), new.clone(), show_sheet)?;
        for (room, wanted) in self.rooms(MAX_BYTES, &new) {
            let (answer, wrote) = lend(room, turn, |b| b as usize, |t| rewrite(s, t))?;
            same_as(&format!("rewrite, {room} bytes lent"), answer.map(|_| wrote), wanted, show_sheet)?;
        }
        self.judge_renumbering("renumber", s, &answers[3])?;
        self.judge_labels(s, &sheet.code, &answers[0], &answers[4])?;
        if let Ok(new) = new {
            same("check of the rewritten sheet", check(&new).map_err(pair), Ok(()))?;
            if let Some(answer) = answers.get(5) {
                self.judge_renumbering("renumber of the rewritten sheet", &new, answer)?;
            }
        }
        Ok(())
    }

    /// Renumber on an accepted sheet, beside the plain reading and the original; what comes out is accepted, and stays as it is when it is renumbered again.
    fn judge_renumbering(&mut self, what: &str, s: &[u8], answer: &Answer) -> Result<(), String> {
        let there = theirs(answer);
        same_as(&format!("{what}; here the plain reading, there the original"), plain::renumber(s), there.clone(), show_sheet)?;
        for (room, wanted) in self.rooms(s.len(), &there) {
            // 15 comes before 9
            let wanted = if there.is_err() { there.clone() } else { wanted };
            let (answer, wrote) = lend(room, self.turn, |b| b as usize, |t| renumber(s, t))?;
            same_as(&format!("{what}, {room} bytes lent"), answer.map(|_| wrote), wanted, show_sheet)?;
        }
        if let Ok(new) = there {
            same(&format!("{what}: its check"), check(&new).map_err(pair), Ok(()))?;
            let (answer, wrote) = lend(new.len(), self.turn, |b| b as usize, |t| renumber(&new, t))?;
            same_as(&format!("{what}, and again"), answer.map(|_| wrote), Ok(new), show_sheet)?;
        }
        Ok(())
    }

    /// Label on an accepted sheet, of every number that a Label has and of some more, beside the plain reading and the original; and beside the original's flow table: a
    /// Label that stands behind nothing that ends a block starts one exactly where it is named.
    fn judge_labels(&mut self, s: &[u8], code: &[Instruction], table: &Answer, answer: &Answer) -> Result<(), String> {
        let known = labels(&theirs(answer).map_err(|refused| format!("labels: the original answers {refused:?}"))?);
        let mut numbers = plain::labels(code);
        numbers.extend([0, 1, 65_535, 65_536, u32::MAX]);
        numbers.extend(known.last_key_value().map(|(l, _)| l + 1));
        numbers.extend(known.keys().nth(self.turn % known.len().max(1)).map(|l| 65_536 + l));
        for l in numbers {
            let there = known.get(&l).copied().unwrap_or(Lookup::Undefined);
            self.ways[plain::packed(there) as usize / 65_536 - 1] += 1;
            same(&format!("label {l}; here the plain reading, there the original"), plain::lookup(code, l), there)?;
            same(&format!("label {l}"), label(s, l).map_err(pair), Ok(there))?;
        }
        let starts: BTreeSet<u16> = table.1.chunks(12).map(|row| u16::from_le_bytes([row[0], row[1]])).collect();
        for k in (1..code.len()).filter(|k| code[*k].kind == LABEL && !plain::ends_block(&code[k - 1])) {
            let named = known.get(&code[k].one.into()) == Some(&Lookup::Named(k as u16));
            same(&format!("label {} is named; there whether a block of the original starts at {k}", code[k].one), named, starts.contains(&(k as u16)))?;
        }
        Ok(())
    }

    /// What the original says of accepted sheets: flow, live, rewriting, renumbering, labels, and where the rewritten sheet is another one, its renumbering.
    fn ask(&mut self, sheets: &[&[u8]]) -> Vec<Vec<Answer>> {
        let requests: Vec<(u8, &[u8])> = sheets.iter().flat_map(|s| [FLOW, LIVE, REWRITE, ELIMINATE, LABELS].map(|op| (op, *s))).collect();
        let mut all: Vec<Vec<Answer>> = pump(&mut self.oracle, &requests).chunks(5).map(<[_]>::to_vec).collect();
        let other = |s: &[u8], a: &[Answer]| a[2].0 == 0 && a[2].1 != s;
        let again: Vec<(u8, &[u8])> = sheets.iter().zip(&all).filter(|(s, a)| other(s, a)).map(|(_, a)| (ELIMINATE, &a[2].1[..])).collect();
        let mut again = pump(&mut self.oracle, &again).into_iter();
        for (_, a) in sheets.iter().zip(&mut all).filter(|(s, a)| other(s, a)) {
            a.extend(again.next());
        }
        all
    }

    /// Asks the original about those of the sheets that are accepted, all at once, and judges each.
    pub fn sheets(&mut self, part: &mut Part, sheets: &[Vec<u8>]) {
        let checks: Vec<Answered<()>> = sheets.iter().map(|s| plain::check(s)).collect();
        let accepted: Vec<&[u8]> = sheets.iter().zip(&checks).filter(|(_, c)| c.is_ok()).map(|(s, _)| &s[..]).collect();
        let answers = self.ask(&accepted);
        part.questions += answers.iter().map(Vec::len).sum::<usize>();
        let mut answers = answers.iter();
        for (s, checked) in sheets.iter().zip(checks) {
            part.sheets += 1;
            let mine = match checked {
                Ok(()) => {
                    part.accepted += 1;
                    let mine = answers.next().unwrap();
                    for refused in mine[2..4].iter().map(|a| a.0 as u16).filter(|status| *status != 0) {
                        *part.met.entry(refused).or_default() += 1;
                    }
                    &mine[..]
                }
                Err((number, _)) => {
                    *part.met.entry(number).or_default() += 1;
                    &[]
                }
            };
            if self.judge(s, checked, mine).is_err() {
                part.differences += 1;
                if self.smallest_sheet.as_ref().is_none_or(|t| size(s) < size(t)) {
                    self.smallest_sheet = Some(s.clone());
                }
            }
        }
    }

    pub fn differs(&mut self, s: &[u8]) -> Option<String> {
        let checked = plain::check(s);
        let answers = match checked {
            Ok(()) => self.ask(&[s]).remove(0),
            Err(_) => vec![],
        };
        self.judge(s, checked, &answers).err()
    }

    /// Drops instructions, then what they say, while the sheet still differs; then prints it.
    pub fn print_sheet(&mut self, s: &[u8]) {
        if !readable(s) {
            println!("a sheet of {} bytes that the plain reading refuses {:?}; its 32-byte pieces that are not zero:", s.len(), plain::check(s).err());
            for (i, piece) in s.chunks(32).enumerate().filter(|(_, p)| p.iter().any(|x| *x != 0)) {
                println!("  {:>5}: {}", 32 * i, piece.iter().map(|x| format!("{x:02x}")).collect::<String>());
            }
            println!("{}", self.differs(s).unwrap_or_default());
            return;
        }
        let mut sheet = Sheet::of_bytes(s);
        loop {
            let mut smaller = vec![];
            for k in 0..sheet.code.len() {
                let mut t = sheet.clone();
                t.code.remove(k);
                if !t.code.is_empty() {
                    smaller.push(t);
                }
            }
            for k in 0..sheet.code.len() {
                let r = &sheet.code[k];
                for new in [
                    Instruction { attr: 0, ..r.clone() },
                    Instruction { payload: 0, ..r.clone() },
                    Instruction { abort: None, one: if r.kind == CALL { 0 } else { r.one }, ..r.clone() },
                    Instruction { srcs: r.srcs.iter().skip(1).copied().collect(), ..r.clone() },
                    Instruction { dsts: r.dsts.iter().skip(1).copied().collect(), ..r.clone() },
                ] {
                    if new != *r {
                        let mut t = sheet.clone();
                        t.code[k] = new;
                        smaller.push(t);
                    }
                }
            }
            for i in (0..64).filter(|i| sheet.references >> i & 1 == 1) {
                smaller.push(Sheet { references: sheet.references & !(1 << i), ..sheet.clone() });
            }
            if let Some(user_locals) = sheet.user_locals.checked_sub(1) {
                smaller.push(Sheet { user_locals, parameters: sheet.parameters.min(user_locals), ..sheet.clone() });
            }
            if sheet.user_locals < sheet.locals && sheet.references >> (sheet.locals - 1) & 1 == 0 {
                smaller.push(Sheet { locals: sheet.locals - 1, ..sheet.clone() });
            }
            match smaller.into_iter().find(|t| readable(&t.bytes()) && self.differs(&t.bytes()).is_some()) {
                Some(t) => sheet = t,
                None => break,
            }
        }
        print!("{}", text::list(&sheet));
        println!("{}", self.differs(&sheet.bytes()).unwrap_or_default());
    }
}

fn size(s: &[u8]) -> (usize, usize) {
    (s.len(), s.iter().filter(|x| **x != 0).count())
}
