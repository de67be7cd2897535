//! Random sheets, and damaged copies of them.
use crate::{plain, Bytes};
use sorzibelu::sheet::*;

/// Marsaglia's xorshift.
pub struct Rng(u64);

impl Rng {
    pub fn new(seed: u64) -> Rng {
        Rng(seed.wrapping_mul(0x9e37_79b9_7f4a_7c15) | 1)
    }

    pub fn number(&mut self) -> u64 {
        self.0 ^= self.0 << 13;
        self.0 ^= self.0 >> 7;
        self.0 ^= self.0 << 17;
        self.0
    }

    /// Below n.
    pub fn below(&mut self, n: usize) -> usize {
        (self.number() >> 16) as usize % n
    }

    pub fn chance(&mut self, of: usize) -> bool {
        self.below(of) == 0
    }
}

const NOT: u8 = 28;
const TRACE_LOCAL: u8 = 48;

/// What a random sheet is like.
#[derive(Clone, Copy)]
pub struct Shape {
    pub n: usize,
    pub locals: usize,
    /// How many Labels, at most half of n.
    pub labels: usize,
    /// Abort flags are drawn too.
    pub flags: bool,
}

/// A sheet that the checks accept.
pub fn sheet(rng: &mut Rng, shape: Shape) -> Sheet {
    let Shape { n, locals, labels, flags } = shape;
    let labels = labels.min(n.saturating_sub(1));
    let step = 1 + rng.below(60);
    let mut numbers: Vec<u16> = (0..labels).map(|i| (i * step + if rng.chance(20) { 60_000 } else { 0 }) as u16).collect();
    numbers.sort_unstable();
    numbers.dedup();
    if step % 12 == 5 {
        let up = 65_535 - numbers.last().copied().unwrap_or(0);
        numbers.iter_mut().for_each(|l| *l += up);
    }
    let mut code: Vec<Instruction> = vec![];
    let mut places: Vec<usize> = (0..n - 1).collect();
    for i in (1..places.len()).rev() {
        places.swap(i, rng.below(i + 1));
    }
    let mut label_at = vec![None; n];
    for (i, l) in numbers.iter().enumerate() {
        label_at[places[i]] = Some(*l);
    }
    for (k, label) in label_at.iter().enumerate() {
        let mut r = match label {
            Some(l) => Instruction { one: *l, ..Instruction::new(LABEL) },
            None => instruction(rng, locals, &numbers, flags, k == n - 1),
        };
        let attrs = if rng.chance(30) { 65_536 } else { 50 };
        r.attr = rng.below(attrs) as u16;
        code.push(r);
    }
    let users = rng.below(locals + 1);
    Sheet {
        locals: locals as u16,
        user_locals: users as u16,
        parameters: rng.below(users + 1) as u16,
        references: if locals == 0 { 0 } else { rng.number() >> (64 - locals) },
        code,
    }
}

fn list(rng: &mut Rng, locals: usize, least: usize, most: usize) -> Vec<u8> {
    let most = if locals == 0 { 0 } else { most };
    (0..least.max(rng.below(most + 1))).map(|_| rng.below(locals) as u8).collect()
}

fn instruction(rng: &mut Rng, locals: usize, labels: &[u16], flags: bool, last: bool) -> Instruction {
    loop {
        let kind = if last { [RET, BRANCH, JUMP, ABORT, CALL][rng.below(5)] } else { rng.below(12) as u8 };
        let mut r = Instruction::new(kind);
        let label = |rng: &mut Rng| labels[rng.below(labels.len())];
        match kind {
            ASSIGN if locals > 0 => {
                r.sub = rng.below(3) as u8;
                r.dsts = list(rng, locals, 1, 1);
                r.srcs = list(rng, locals, 1, 1);
            }
            CALL => {
                r.sub = if last || rng.chance(12) { STOP } else { rng.below(55) as u8 };
                let most = if rng.chance(3) { 8 } else { 2 };
                r.dsts = list(rng, locals, 0, most);
                r.srcs = list(rng, locals, 0, most);
                r.payload = rng.number() as u32;
                if flags && !last && locals > 0 && !labels.is_empty() && rng.chance(3) {
                    r.one = label(rng);
                    r.abort = Some(rng.below(locals) as u8);
                    // a Stop has no abort action
                    if r.sub == STOP {
                        r.sub = NOT;
                    }
                }
            }
            RET => r.srcs = list(rng, locals, 0, 3),
            LOAD if locals > 0 => {
                r.sub = rng.below(7) as u8;
                r.dsts = list(rng, locals, 1, 1);
                r.payload = rng.number() as u32;
            }
            BRANCH if locals > 0 && !labels.is_empty() => {
                r.one = label(rng);
                r.two = label(rng);
                r.srcs = list(rng, locals, 1, 1);
            }
            JUMP if !labels.is_empty() => r.one = label(rng),
            ABORT if locals > 0 => r.srcs = list(rng, locals, 1, 1),
            NOP => {}
            SAVE_MEM | SAVE_SPEC_VAR => r.payload = rng.number() as u32,
            PROP => {
                r.sub = rng.below(3) as u8;
                r.srcs = list(rng, locals, 0, 4);
                r.payload = rng.number() as u32;
            }
            _ => continue,
        }
        return r;
    }
}

/// A shape with sizes of every order, and the limits now and then.
pub fn shape(rng: &mut Rng) -> Shape {
    let n = match rng.below(12) {
        0 => 1 + rng.below(1024),
        1 => 1023 + rng.below(2),
        2 => 15 * (1 + rng.below(4)) + rng.below(3) - 1,
        _ => 1 + rng.below(40),
    };
    let locals = match rng.below(6) {
        0 => 64,
        1 => rng.below(65),
        _ => rng.below(6),
    };
    Shape { n, locals, labels: rng.below(1 + n / 2), flags: rng.chance(2) }
}

/// A sheet whose Branches lose references on many edges.
pub fn lossy(rng: &mut Rng) -> Sheet {
    let locals = if rng.chance(2) { 64 } else { 1 + rng.below(64) };
    let blocks = if rng.chance(4) { 2 + rng.below(60) } else { 2 + rng.below(8) };
    let step = 1 + rng.below(40);
    let labels: Vec<u16> = (0..blocks).map(|i| (i * step + 1) as u16).collect();
    let mut code = vec![];
    for l in &labels {
        code.push(Instruction { one: *l, ..Instruction::new(LABEL) });
        for _ in 0..rng.below(4) {
            let mut r = Instruction::new([PROP, CALL, LOAD, CALL][rng.below(4)]);
            match r.kind {
                PROP => r.srcs = list(rng, locals, 8, 8),
                LOAD => r.dsts = list(rng, locals, 1, 1),
                _ => {
                    r.sub = NOT;
                    r.dsts = list(rng, locals, 1, 8);
                    r.srcs = list(rng, locals, 0, 8);
                }
            }
            code.push(r);
        }
        let mut end = Instruction::new([BRANCH, BRANCH, BRANCH, RET, ABORT][rng.below(5)]);
        match end.kind {
            BRANCH => {
                end.one = labels[rng.below(blocks)];
                end.two = labels[rng.below(blocks)];
                end.srcs = list(rng, locals, 1, 1);
            }
            RET => end.srcs = list(rng, locals, 0, 8),
            _ => end.srcs = list(rng, locals, 1, 1),
        }
        code.push(end);
    }
    for r in &mut code {
        r.attr = rng.below(300) as u16;
    }
    let few = if rng.chance(3) { rng.number() } else { u64::MAX };
    Sheet { locals: locals as u16, references: few >> (64 - locals), code, ..Default::default() }
}

/// A sheet whose locals are worth renumbering: nothing mentions some of them, an abort action alone may mention one, lists may name one twice. TraceLocal is frequent,
/// IsParent and WriteBack are rare.
pub fn numbered(rng: &mut Rng) -> Sheet {
    let shape = shape(rng);
    let mut sheet = sheet(rng, shape);
    let locals = shape.locals;
    if locals == 0 {
        return sheet;
    }
    // those that are mentioned, in any order; one of the others is for an abort action alone
    let mut some: Vec<u8> = (0..locals as u8).collect();
    for i in (1..locals).rev() {
        some.swap(i, rng.below(i + 1));
    }
    let alone = some.split_off(1 + rng.below(locals));
    let hides = rng.chance(6);
    for r in &mut sheet.code {
        for x in r.dsts.iter_mut().chain(&mut r.srcs).chain(&mut r.abort) {
            *x = some[*x as usize % some.len()];
        }
        // the last instruction may be a Stop, and has to stay one
        if r.kind == CALL && r.sub != STOP && (matches!(r.sub, 19 | 20) && !hides || rng.chance(6)) {
            r.sub = TRACE_LOCAL;
            r.payload = rng.below(64) as u32;
        }
        if r.kind == CALL && rng.chance(4) && (1..8).contains(&r.dsts.len()) {
            r.dsts.push(r.dsts[0]);
        }
    }
    let flagged = sheet.code.iter_mut().find_map(|r| r.abort.as_mut());
    if let (Some(local), Some(x)) = (flagged, alone.first()) {
        *local = *x;
    }
    sheet
}

/// The sheet moved to an edge of 10 or 11, on either side of it: its highest Label, its highest attribute id, or its length by Nops in front.
/// None where it gets no new block, or cannot be moved there.
pub fn edge(rng: &mut Rng, sheet: &Sheet) -> Option<Sheet> {
    let w = plain::rewriting(sheet);
    if w.added.is_empty() {
        return None;
    }
    let mut sheet = sheet.clone();
    let past = rng.below(2);
    let way = rng.below(4);
    if way == 0 || way == 3 {
        let old = sheet.code.iter().filter(|r| r.kind == LABEL).map(|r| r.one).max()?;
        let new = (65_535 - w.added.iter().filter(|r| r.kind == LABEL).count() + past) as u16;
        if old > new {
            return None;
        }
        for r in &mut sheet.code {
            if r.one == old && (matches!(r.kind, LABEL | JUMP | BRANCH) || r.abort.is_some()) {
                r.one = new;
            }
            if r.two == old && r.kind == BRANCH {
                r.two = new;
            }
        }
    }
    if way == 1 {
        let most = (65_535 - w.added.len() + past) as u16;
        sheet.code.iter_mut().for_each(|r| r.attr = r.attr.min(most));
        let at = rng.below(sheet.code.len());
        sheet.code[at].attr = most;
    }
    if way >= 2 {
        let more = (1024 + rng.below(2)).checked_sub(w.kept.len() + w.added.len())?;
        if sheet.code.len() + more > 1024 {
            return None;
        }
        sheet.code.splice(0..0, vec![Instruction::new(NOP); more]);
    }
    Some(sheet)
}

/// A damaged copy of a sheet. Some have Stops with abort actions, alone or beside another damage.
pub fn damage(rng: &mut Rng, s: &[u8]) -> Vec<u8> {
    if !rng.chance(4) {
        return changed(rng, s);
    }
    let t = stopped(rng, s);
    if rng.chance(2) { t } else { changed(rng, &t) }
}

/// One to four instructions made Calls: mostly Stops, else one of the operations that are a Stop but for a bit or two; mostly with an abort action, whose label and local are
/// mostly the sheet's. Seldom the last of them has a flag that is none.
fn stopped(rng: &mut Rng, s: &[u8]) -> Vec<u8> {
    let mut sheet = Sheet::of_bytes(s);
    let labels = plain::labels(&sheet.code);
    let (n, locals) = (sheet.code.len(), sheet.locals as usize);
    let mut k = 0;
    for _ in 0..1 + rng.below(4) {
        k = [0, n - 1, rng.below(n), rng.below(n), rng.below(n)][rng.below(5)];
        let r = &mut sheet.code[k];
        // a Call keeps its lists
        if r.kind != CALL {
            *r = Instruction { attr: r.attr, ..Instruction::new(CALL) };
        }
        r.sub = if rng.chance(3) { [2, 16, 17, 19, 50][rng.below(5)] } else { STOP };
        (r.one, r.abort) = (0, None);
        if !rng.chance(4) {
            r.one = if labels.is_empty() || rng.chance(8) { rng.number() as u16 } else { labels[rng.below(labels.len())] as u16 };
            let most = if locals == 0 || rng.chance(8) { 256 } else { locals };
            r.abort = Some(rng.below(most) as u8);
        }
    }
    let mut t = sheet.bytes();
    if rng.chance(10) {
        t[record_start(k) + 10] = 2 + rng.below(254) as u8;
        seal(&mut t);
    }
    t
}

/// One or two changes of a sheet's bytes, or of its code; mostly sealed again, so that later checks are met.
fn changed(rng: &mut Rng, s: &[u8]) -> Vec<u8> {
    if rng.chance(3) {
        return damaged_code(rng, s);
    }
    let mut t = s.to_vec();
    for _ in 0..1 + rng.below(2) {
        let at = match rng.below(4) {
            0 => rng.below(t.len()),
            1 => rng.below(32),
            2 => 512 + rng.below(32),
            _ => {
                let blocks = t.len() / BLOCK - 1;
                record_start(rng.below(blocks * PER_BLOCK)) + rng.below(RECORD)
            }
        };
        t[at] = match rng.below(4) {
            0 => 0,
            1 => t[at].wrapping_add(1),
            2 => 1 << rng.below(8),
            _ => rng.number() as u8,
        };
    }
    match rng.below(16) {
        0 => t.truncate(rng.below(t.len() + 1)),
        1 => t.extend_from_slice(&vec![0; 1 + rng.below(600)]),
        2 => t.extend_from_slice(&[0; BLOCK]),
        3 => t.truncate(t.len() - BLOCK),
        _ => {}
    }
    if !rng.chance(5) {
        for b in 0..t.len() / BLOCK {
            let block = &mut t[b * BLOCK..(b + 1) * BLOCK];
            block[..2].copy_from_slice(&(b as u16).to_le_bytes());
            let sum: usize = block[..2].iter().chain(&block[4..]).map(|x| *x as usize).sum();
            block[2..4].copy_from_slice(&(sum as u16).to_le_bytes());
        }
    }
    t
}

/// A label that moves onto another's number or away, a local at the count, or another last instruction.
fn damaged_code(rng: &mut Rng, s: &[u8]) -> Vec<u8> {
    let mut sheet = Sheet::of_bytes(s);
    let n = sheet.code.len();
    for _ in 0..1 + rng.below(2) {
        let (k, from) = (rng.below(n), rng.below(n));
        match rng.below(4) {
            0 => sheet.code[k] = sheet.code[from].clone(),
            1 => sheet.code[n - 1] = sheet.code[from].clone(),
            2 if sheet.code[k].one > 0 => sheet.code[k].one ^= 1,
            _ => {
                if let Some(x) = sheet.code[k].srcs.first_mut() {
                    *x = sheet.locals as u8;
                }
            }
        }
    }
    sheet.bytes()
}

/// A sheet of 1,024 instructions that keeps the work list full: a ring of flagged Calls, each a block of its own that hears of one
/// more local at a time. It comes to more removals than 16 bits can count.
pub fn fullest() -> Sheet {
    let mut code = vec![Instruction { one: 1, ..Instruction::new(LABEL) }];
    for k in 0..16 * 63u16 {
        code.push(Instruction { sub: NOT, one: 2, srcs: vec![(k % 63) as u8], abort: Some(63), ..Instruction::new(CALL) });
    }
    let jump = Instruction { one: 1, ..Instruction::new(JUMP) };
    code.push(jump.clone());
    code.push(Instruction { one: 2, ..Instruction::new(LABEL) });
    code.push(Instruction { srcs: vec![63], ..Instruction::new(RET) });
    code.resize(1_024, jump);
    Sheet { locals: 64, code, ..Default::default() }
}
