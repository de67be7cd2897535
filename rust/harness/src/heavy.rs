//! Every call on one sort of input, and the inputs that make them work: small, largest, refused, full graphs.
use crate::{random, random::Rng, Bytes};
use sorzibelu::{graph::Owned, sheet::*, *};

/// A sheet, and a pair of graphs.
pub struct Input {
    pub sheet: Vec<u8>,
    pub this: Owned,
    pub next: Owned,
}

type Call = fn(&Input);

/// Every call by its name.
pub fn calls() -> Vec<(&'static str, Call)> {
    vec![
        ("check", |i| discard(check(&i.sheet))),
        ("flow", |i| discard(flow(&i.sheet, &mut vec![0; FLOW_NUMBERS]))),
        ("live", |i| discard(live(&i.sheet, &mut vec![0; LIVE_BYTES]))),
        ("live_class", |i| discard(live_class(&i.sheet.repeat(3), &mut vec![0; 3 * LIVE_BYTES], &mut [0; 3 * NUMBERS_PER_SHEET]))),
        ("rewrite", |i| discard(rewrite(&i.sheet, &mut vec![0; MAX_SHEET_BYTES]))),
        ("renumber", |i| discard(renumber(&i.sheet, &mut vec![0; MAX_SHEET_BYTES]))),
        ("label", |i| discard(label(&i.sheet, 1))),
        ("livelist", |i| discard(livelist(&i.sheet, &mut vec![0; LIVELIST_BYTES]))),
        ("page", |i| discard(page(&i.sheet, &mut vec![0; PAGE_BYTES]))),
        ("in_use", |i| discard(in_use(i.this.graph(), 0))),
        ("conditional", |i| discard(conditional(i.this.graph(), 0))),
        ("dying", |i| discard(dying(i.this.graph(), i.next.graph(), &mut [0; MAX_NODES]))),
    ]
}

fn discard<T>(_: T) {}

/// The inputs.
pub fn inputs() -> Vec<Input> {
    let mut rng = Rng::new(17);
    let nops = Sheet { code: [vec![Instruction::new(NOP); 1_023], vec![Instruction::new(RET)]].concat(), ..Default::default() };
    let mut sheets = vec![vec![], nops.bytes(), random::fullest().bytes(), random::lossy(&mut rng).bytes()];
    for _ in 0..6 {
        let shape = random::shape(&mut rng);
        let s = random::sheet(&mut rng, shape).bytes();
        sheets.push(random::damage(&mut rng, &s));
        sheets.push(s);
    }
    // a chain down all nodes and back, every other triple doubled
    let chain: Vec<[u32; 3]> = (0..63).flat_map(|p| [[p, p + 1, 0], [p, p + 1, 1]]).collect();
    let full = || Owned::new(64, &[63], &chain);
    let none = || Owned::new(64, &[], &chain);
    sheets.into_iter().map(|sheet| Input { sheet, this: full(), next: none() }).collect()
}
