//! The live rules and the work list.
use super::{check, flow::blocks, record, Refused, Targets, LIST, MOST};
use sorzibelu::sheet::{ABORT, ASSIGN, BRANCH, CALL, LOAD, PROP, RECORD, RET};

fn set(list: &[u8], count: u8) -> u64 {
    list[..count as usize].iter().fold(0, |m, x| m | 1 << x)
}

/// What an instruction takes out and puts in; an Assign only where its destination is in.
#[derive(Clone, Copy)]
struct Rule {
    kills: u64,
    gens: u64,
    assign: bool,
}

fn rule(r: &[u8; RECORD]) -> Rule {
    let (dsts, srcs) = (set(&r[12..20], r[8]), set(&r[20..28], r[9]));
    match r[0] {
        ASSIGN => Rule { kills: dsts, gens: srcs, assign: true },
        CALL => {
            let gone = if r[10] == 1 { 1 << r[11] } else { 0 };
            Rule { kills: dsts | gone, gens: srcs & !gone, assign: false }
        }
        LOAD => Rule { kills: dsts, gens: 0, assign: false },
        RET | BRANCH | ABORT | PROP => Rule { kills: 0, gens: srcs, assign: false },
        _ => Rule { kills: 0, gens: 0, assign: false },
    }
}

fn apply(r: &Rule, m: u64) -> u64 {
    if r.assign && m & r.kills == 0 {
        return m;
    }
    m & !r.kills | r.gens
}

/// The sets before and after each instruction, and how many blocks were taken.
pub fn live(s: &[u8], out: &mut [u8]) -> Result<u32, Refused> {
    live_by::<false>(s, out)
}

/// The same, with check 7 by a table of all label numbers.
pub fn live_with_table(s: &[u8], out: &mut [u8]) -> Result<u32, Refused> {
    live_by::<true>(s, out)
}

fn live_by<const TABLE: bool>(s: &[u8], out: &mut [u8]) -> Result<u32, Refused> {
    let mut targets = [[0; 2]; MOST];
    let n = check::<TABLE>(s, &mut targets)?;
    if out.len() < 16 * n {
        return Err((9, 0));
    }
    Ok(analyze(s, n, &targets, out))
}

/// The sets of an accepted sheet, and how many blocks were taken.
pub(super) fn analyze(s: &[u8], n: usize, targets: &Targets, out: &mut [u8]) -> u32 {
    let mut rules = [Rule { kills: 0, gens: 0, assign: false }; MOST];
    (0..n).for_each(|k| rules[k] = rule(record(s, k)));
    let b = blocks(s, n, targets);
    // the keys before each key, ascending
    let nodes = b.count + 2;
    let mut starts = [0u16; MOST + 4];
    let mut before = [0u16; 2 * MOST + 1];
    starts[b.key[0] as usize + 2] += 1;
    for i in 0..b.count {
        b.next[i][..b.nexts[i] as usize].iter().for_each(|k| starts[*k as usize + 2] += 1);
    }
    for k in 2..nodes + 2 {
        starts[k] += starts[k - 1];
    }
    let mut put = |k: u16, p: u16| {
        let at = &mut starts[k as usize + 1];
        before[*at as usize] = p;
        *at += 1;
    };
    put(b.key[0], 0);
    for p in 2..nodes {
        let i = b.of_key[p] as usize;
        b.next[i][..b.nexts[i] as usize].iter().for_each(|k| put(*k, p as u16));
    }
    // the work list
    let mut parts = [(0u16, 0u16); MOST + 2];
    (2..nodes).for_each(|k| parts[k] = (b.lower[b.of_key[k] as usize], b.upper[b.of_key[k] as usize]));
    let mut sets = [0u64; MOST + 2];
    let mut met = [false; MOST + 2];
    let mut list = [0u16; LIST];
    let (mut head, mut end) = (0, 1);
    (list[0], met[1]) = (1, true);
    while head < end {
        let k = list[head] as usize;
        head += 1;
        let mut m = sets[k];
        if k > 1 {
            let (lower, upper) = parts[k];
            m = rules[lower as usize..upper as usize + 1].iter().rev().fold(m, |m, r| apply(r, m));
        }
        let mut receive = |p: usize| {
            let joined = sets[p] | m;
            if !met[p] || joined != sets[p] {
                (met[p], sets[p], list[end]) = (true, joined, p as u16);
                end += 1;
            }
        };
        if k == 1 {
            (2..nodes).for_each(receive);
        } else {
            before[starts[k] as usize..starts[k + 1] as usize].iter().for_each(|p| receive(*p as usize));
        }
    }
    for i in 0..b.count {
        let mut m = sets[b.key[i] as usize];
        for k in (b.lower[i] as usize..=b.upper[i] as usize).rev() {
            out[16 * k + 8..16 * k + 16].copy_from_slice(&m.to_le_bytes());
            m = apply(&rules[k], m);
            out[16 * k..16 * k + 8].copy_from_slice(&m.to_le_bytes());
        }
    }
    head as u32
}
