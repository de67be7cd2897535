//! Checks 1 to 8, and 18 (document 02, E5) between 4 and 5.
use sorzibelu::sheet::*;

fn u16_at(s: &[u8], at: usize) -> usize {
    s[at] as usize + 256 * s[at + 1] as usize
}

/// The numbers of the checks of a sheet, in their order.
pub const CHECKS: [u16; 9] = [1, 2, 3, 4, 18, 5, 6, 7, 8];

/// Which of the checks has this number, from 1; 0 for none.
pub fn rank(number: u16) -> usize {
    CHECKS.iter().position(|check| *check == number).map_or(0, |before| before + 1)
}

/// Every check, each over the whole sheet before the next: a number and a place where the sheet is turned away.
pub fn check(s: &[u8]) -> Result<(), (u16, u16)> {
    // 1
    if !s.len().is_multiple_of(BLOCK) || s.len() < 1024 || s.len() > MAX_BYTES {
        return Err((1, 0));
    }
    // 2
    for (b, p) in s.chunks_exact(BLOCK).enumerate() {
        let sum: usize = p[..2].iter().chain(&p[4..]).map(|x| *x as usize).sum();
        if u16_at(p, 0) != b || u16_at(p, 2) != sum % 65536 || b > 0 && p[4..32].iter().any(|x| *x != 0) {
            return Err((2, b as u16));
        }
    }
    // 3
    let (n, locals, users, params) = (u16_at(s, 4), u16_at(s, 6), u16_at(s, 8), u16_at(s, 10));
    let refs = u64::from_le_bytes(s[16..24].try_into().unwrap());
    let fine = (1..=1024).contains(&n)
        && locals <= 64
        && users <= locals
        && params <= users
        && s[12..16].iter().all(|x| *x == 0)
        && (locals == 64 || refs >> locals == 0)
        && s[24..512].iter().all(|x| *x == 0)
        && s.len() / BLOCK == 1 + n.div_ceil(PER_BLOCK);
    if !fine {
        return Err((3, 0));
    }
    // 4
    let record = |k: usize| &s[record_start(k)..record_start(k) + RECORD];
    for k in 0..(s.len() / BLOCK - 1) * PER_BLOCK {
        let r = record(k);
        if if k < n { !record_ok(r) } else { r.iter().any(|x| *x != 0) } {
            return Err((4, k as u16));
        }
    }
    // 18
    for k in 0..n {
        let r = record(k);
        if r[0] == CALL && r[1] == STOP && r[10] == 1 {
            return Err((18, k as u16));
        }
    }
    // 5
    for k in 0..n {
        let r = record(k);
        let listed = r[12..12 + r[8] as usize].iter().chain(&r[20..20 + r[9] as usize]);
        if listed.chain((r[10] == 1).then_some(&r[11])).any(|x| *x as usize >= locals) {
            return Err((5, k as u16));
        }
    }
    // 6
    let mut labels = vec![];
    let mut seen = vec![false; 65536];
    for k in 0..n {
        let r = record(k);
        if r[0] == LABEL {
            let l = u16_at(r, 4);
            if seen[l] {
                return Err((6, k as u16));
            }
            seen[l] = true;
            labels.push(l);
        }
    }
    // 7
    for k in 0..n {
        let r = record(k);
        let names: &[usize] = match r[0] {
            BRANCH => &[4, 6],
            JUMP => &[4],
            CALL if r[10] == 1 => &[4],
            _ => &[],
        };
        if names.iter().any(|at| !labels.contains(&u16_at(r, *at))) {
            return Err((7, k as u16));
        }
    }
    // 8
    let r = record(n - 1);
    let falls = match r[0] {
        RET | BRANCH | JUMP | ABORT => false,
        CALL => r[1] != STOP,
        _ => true,
    };
    if falls {
        return Err((8, n as u16 - 1));
    }
    Ok(())
}

/// The record keeps to the table of kinds.
fn record_ok(r: &[u8]) -> bool {
    let (subs, dsts, srcs, one, two, flag, payload) = match r[0] {
        ASSIGN => (3, 1..=1, 1..=1, false, false, false, false),
        CALL => (55, 0..=8, 0..=8, r[10] == 1, false, true, true),
        RET => (1, 0..=0, 0..=8, false, false, false, false),
        LOAD => (7, 1..=1, 0..=0, false, false, false, true),
        BRANCH => (1, 0..=0, 1..=1, true, true, false, false),
        JUMP | LABEL => (1, 0..=0, 0..=0, true, false, false, false),
        ABORT => (1, 0..=0, 1..=1, false, false, false, false),
        NOP => (1, 0..=0, 0..=0, false, false, false, false),
        SAVE_MEM | SAVE_SPEC_VAR => (1, 0..=0, 0..=0, false, false, false, true),
        PROP => (3, 0..=0, 0..=8, false, false, false, true),
        _ => return false,
    };
    r[1] < subs
        && dsts.contains(&r[8])
        && srcs.contains(&r[9])
        && (one || u16_at(r, 4) == 0)
        && (two || u16_at(r, 6) == 0)
        && (r[10] == 0 || flag && r[10] == 1)
        && (r[10] == 1 || r[11] == 0)
        && r[12 + r[8] as usize..20].iter().all(|x| *x == 0)
        && r[20 + r[9] as usize..28].iter().all(|x| *x == 0)
        && (payload || r[28..].iter().all(|x| *x == 0))
}
