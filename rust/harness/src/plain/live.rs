//! Flow and live, with masks and one work list.
use sorzibelu::sheet::*;

/// The blocks of accepted code, their keys, and the backward graph.
pub struct Blocks {
    /// Lower and upper of each block, by offset.
    pub bounds: Vec<(usize, usize)>,
    /// The key of each block, by offset.
    pub keys: Vec<usize>,
    /// The successor keys of each block, by offset, without the dummy exit.
    pub next: Vec<Vec<usize>>,
}

/// Ret, Abort and Stop, which go nowhere.
fn exits(r: &Instruction) -> bool {
    matches!(r.kind, RET | ABORT) || r.kind == CALL && r.sub == STOP
}

fn successors(code: &[Instruction], offset_of: &[usize], k: usize) -> Vec<usize> {
    let r = &code[k];
    let mut v = match r.kind {
        _ if exits(r) => vec![],
        BRANCH => vec![offset_of[r.one as usize], offset_of[r.two as usize]],
        JUMP => vec![offset_of[r.one as usize]],
        CALL if r.abort.is_some() => vec![offset_of[r.one as usize], k + 1],
        _ => vec![k + 1],
    };
    v.sort_unstable();
    v
}

/// A block ends with it.
pub fn ends_block(r: &Instruction) -> bool {
    exits(r) || matches!(r.kind, BRANCH | JUMP) || r.kind == CALL && r.abort.is_some()
}

pub fn blocks(code: &[Instruction]) -> Blocks {
    let n = code.len();
    let mut offset_of = vec![n; 65536];
    for (k, r) in code.iter().enumerate().filter(|(_, r)| r.kind == LABEL) {
        offset_of[r.one as usize] = k;
    }
    let mut starts = vec![false; n + 1];
    starts[0] = true;
    for (k, r) in code.iter().enumerate() {
        if ends_block(r) {
            starts[k + 1] = true;
            match r.kind {
                BRANCH => {
                    starts[offset_of[r.one as usize]] = true;
                    starts[offset_of[r.two as usize]] = true;
                }
                JUMP => starts[offset_of[r.one as usize]] = true,
                CALL if r.abort.is_some() => starts[offset_of[r.one as usize]] = true,
                _ => {}
            }
        }
    }
    let lowers: Vec<usize> = (0..n).filter(|k| starts[*k]).collect();
    let bounds: Vec<(usize, usize)> = lowers.iter().enumerate().map(|(b, l)| (*l, lowers.get(b + 1).map_or(n, |x| *x) - 1)).collect();
    let mut key = vec![0; n];
    let mut count = 2;
    let mut give = |o: usize| {
        if key[o] == 0 {
            key[o] = count;
            count += 1;
        }
        key[o]
    };
    let next: Vec<Vec<usize>> = bounds
        .iter()
        .map(|(l, u)| {
            let v = successors(code, &offset_of, *u).into_iter().map(&mut give).collect();
            give(*l);
            v
        })
        .collect();
    let keys = lowers.iter().map(|l| key[*l]).collect();
    Blocks { bounds, keys, next }
}

/// Six numbers for each block.
pub fn flow(code: &[Instruction]) -> Vec<u16> {
    let b = blocks(code);
    let mut table = vec![];
    for (i, (l, u)) in b.bounds.iter().enumerate() {
        let mut row: Vec<usize> = if exits(&code[*u]) { vec![1] } else { b.next[i].clone() };
        row.resize(3, 0);
        table.extend([*l, *u, b.keys[i], row[0], row[1], row[2]].map(|x| x as u16));
    }
    table
}

fn mask(xs: &[u8]) -> u64 {
    xs.iter().fold(0, |m, x| m | 1 << x)
}

/// The set before an instruction, from the set after it.
pub fn execute(r: &Instruction, m: u64) -> u64 {
    match r.kind {
        ASSIGN if m >> r.dsts[0] & 1 == 1 => m & !mask(&r.dsts) | mask(&r.srcs),
        CALL => (m & !mask(&r.dsts) | mask(&r.srcs)) & !r.abort.map_or(0, |a| 1 << a),
        LOAD => m & !mask(&r.dsts),
        RET | BRANCH | ABORT | PROP => m | mask(&r.srcs),
        _ => m,
    }
}

/// Before and after of each instruction, and how many blocks were taken.
pub fn live(code: &[Instruction]) -> (Vec<(u64, u64)>, u32) {
    let b = blocks(code);
    let nodes = b.keys.len() + 2;
    let mut block_of = vec![0; nodes];
    let mut leads = vec![vec![]; nodes];
    for (i, k) in b.keys.iter().enumerate() {
        block_of[*k] = i;
    }
    leads[b.keys[0]].push(0);
    for (k, block) in block_of.iter().enumerate().skip(2) {
        leads[1].push(k);
        for s in &b.next[*block] {
            leads[*s].push(k);
        }
    }
    let mut pre: Vec<Option<u64>> = vec![None; nodes];
    let mut list = std::collections::VecDeque::from([1]);
    let mut taken = 0;
    pre[1] = Some(0);
    // key 0 precedes the block at offset 0: it is in the list of that block's key, first since it is the least
    while let Some(k) = list.pop_front() {
        taken += 1;
        let mut m = pre[k].unwrap();
        if k > 1 {
            let (l, u) = b.bounds[block_of[k]];
            m = code[l..=u].iter().rev().fold(m, |m, r| execute(r, m));
        }
        for p in &leads[k] {
            match pre[*p] {
                Some(x) if x | m == x => {}
                old => {
                    pre[*p] = Some(old.unwrap_or(0) | m);
                    list.push_back(*p);
                }
            }
        }
    }
    let mut sets = vec![(0, 0); code.len()];
    for (i, (l, u)) in b.bounds.iter().enumerate() {
        let mut m = pre[b.keys[i]].unwrap();
        for k in (*l..=*u).rev() {
            let after = m;
            m = execute(&code[k], m);
            sets[k] = (m, after);
        }
    }
    (sets, taken)
}

/// The sets as live writes them: 8 bytes of before, then 8 of after.
pub fn set_bytes(sets: &[(u64, u64)]) -> Vec<u8> {
    sets.iter().flat_map(|(b, a)| [b.to_le_bytes(), a.to_le_bytes()].concat()).collect()
}
