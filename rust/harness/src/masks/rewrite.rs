//! The rewritten sheet.
use super::{check, live::analyze, names, record, u16_at, u64_at, Refused, DESTROY, MOST};
use sorzibelu::sheet::{record_start, ASSIGN, BLOCK, BRANCH, CALL, JUMP, LABEL, LOAD, MAX_BYTES, PER_BLOCK, RECORD};

/// The rewritten sheet at the front of `out`: its length.
pub fn rewrite(s: &[u8], out: &mut [u8]) -> Result<u32, Refused> {
    let mut targets = [[0; 2]; MOST];
    let n = check::<false>(s, &mut targets)?;
    if out.len() < MAX_BYTES {
        return Err((9, 0));
    }
    let mut info = [0u8; 16 * MOST];
    analyze(s, n, &targets, &mut info);
    let refs = u64_at(s, 16);
    let before = |k: usize| u64_at(&info, 16 * k);
    let in_after = |k: usize, local: u8| u64_at(&info, 16 * k + 8) >> local & 1 == 1;
    // what an edge of a Branch loses, a Load or Assign that goes, and a Call that takes the Assign behind it
    let lost = |k: usize, j: usize| refs & u64_at(&info, 16 * k + 8) & !before(targets[k][j] as usize);
    let dead = |k: usize, r: &[u8; RECORD]| matches!(r[0], LOAD | ASSIGN) && !in_after(k, r[12]);
    let merges = |k: usize, r: &[u8; RECORD]| {
        r[0] == CALL && r[8] == 1 && k + 1 < n && {
            let a = record(s, k + 1);
            a[0] == ASSIGN && a[20] == r[12] && !in_after(k + 1, r[12])
        }
    };
    let (mut label, mut attr, mut kept, mut added, mut edges) = (0, 0, 0, 0, 0);
    let mut k = 0;
    while k < n {
        let r = record(s, k);
        if !dead(k, r) {
            kept += 1;
            for m in (0..names(r)).filter(|_| r[0] == BRANCH).map(|j| lost(k, j)).filter(|m| *m != 0) {
                edges += 1;
                added += 2 + m.count_ones() as usize;
            }
        }
        k += 1 + merges(k, r) as usize;
    }
    for r in (0..n).map(|k| record(s, k)) {
        attr = attr.max(u16_at(r, 2) as usize);
        if r[0] == LABEL {
            label = label.max(u16_at(r, 4) as usize);
        }
    }
    if edges > 0 && (label + edges > 65_535 || attr + added > 65_535) {
        return Err((10, 0));
    }
    if kept + added > MOST {
        return Err((11, 0));
    }
    let length = BLOCK * (1 + (kept + added).div_ceil(PER_BLOCK));
    let out = &mut out[..length];
    out.fill(0);
    out[4..24].copy_from_slice(&s[4..24]);
    out[4..6].copy_from_slice(&((kept + added) as u16).to_le_bytes());
    let (mut at, mut end) = (0, kept);
    let mut put = |at: &mut usize, r: &[u8; RECORD]| {
        out[record_start(*at)..record_start(*at) + RECORD].copy_from_slice(r);
        *at += 1;
    };
    let mut k = 0;
    while k < n {
        let mut r = *record(s, k);
        let merged = merges(k, &r);
        if merged {
            r[12] = record(s, k + 1)[12];
        }
        if r[0] == BRANCH {
            for j in 0..2 {
                let mut left = lost(k, j);
                if left == 0 {
                    continue;
                }
                let old = [r[4 + 2 * j], r[5 + 2 * j]];
                label += 1;
                r[4 + 2 * j..6 + 2 * j].copy_from_slice(&(label as u16).to_le_bytes());
                let mut new = |kind: u8, sub: u8, one: [u8; 2], source: Option<u8>| {
                    attr += 1;
                    let mut x = [0; RECORD];
                    (x[0], x[1], x[9], x[20]) = (kind, sub, source.is_some() as u8, source.unwrap_or(0));
                    x[2..4].copy_from_slice(&(attr as u16).to_le_bytes());
                    x[4..6].copy_from_slice(&one);
                    put(&mut end, &x);
                };
                new(LABEL, 0, (label as u16).to_le_bytes(), None);
                while left != 0 {
                    new(CALL, DESTROY, [0; 2], Some(left.trailing_zeros() as u8));
                    left &= left - 1;
                }
                new(JUMP, 0, old, None);
            }
        }
        if !dead(k, &r) {
            put(&mut at, &r);
        }
        k += 1 + merged as usize;
    }
    for (b, p) in out.chunks_exact_mut(BLOCK).enumerate() {
        p[..2].copy_from_slice(&(b as u16).to_le_bytes());
        let sum: u32 = p.iter().map(|x| *x as u32).sum();
        p[2..4].copy_from_slice(&(sum as u16).to_le_bytes());
    }
    Ok(length as u32)
}
