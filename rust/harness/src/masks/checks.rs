//! Checks 1 to 8, and 18 between 4 and 5.
use super::{falls, names, record, u16_at, u64_at, Refused, Targets, MOST};
use sorzibelu::sheet::{BLOCK, CALL, LABEL, MAX_BYTES, PER_BLOCK, RECORD, STOP};

/// Subs, destinations from and to, sources from and to; label one, label two, flag, payload.
struct Row(u8, u8, u8, u8, u8, bool, bool, bool, bool);

/// The table of kinds.
const ROWS: [Row; 12] = [
    Row(3, 1, 1, 1, 1, false, false, false, false),
    Row(55, 0, 8, 0, 8, false, false, true, true),
    Row(1, 0, 0, 0, 8, false, false, false, false),
    Row(7, 1, 1, 0, 0, false, false, false, true),
    Row(1, 0, 0, 1, 1, true, true, false, false),
    Row(1, 0, 0, 0, 0, true, false, false, false),
    Row(1, 0, 0, 0, 0, true, false, false, false),
    Row(1, 0, 0, 1, 1, false, false, false, false),
    Row(1, 0, 0, 0, 0, false, false, false, false),
    Row(1, 0, 0, 0, 0, false, false, false, true),
    Row(1, 0, 0, 0, 0, false, false, false, true),
    Row(3, 0, 0, 0, 8, false, false, false, true),
];

fn record_ok(r: &[u8; RECORD]) -> bool {
    let Some(Row(subs, dlow, dhigh, slow, shigh, one, two, flag, payload)) = ROWS.get(r[0] as usize) else { return false };
    let past = |list: u64, count: u8| count < 8 && list >> (8 * count) != 0;
    r[1] < *subs
        && (dlow..=dhigh).contains(&&r[8])
        && (slow..=shigh).contains(&&r[9])
        && (*one || r[10] == 1 || u16_at(r, 4) == 0)
        && (*two || u16_at(r, 6) == 0)
        && (r[10] == 0 || *flag && r[10] == 1)
        && (r[10] == 1 || r[11] == 0)
        && !past(u64_at(r, 12), r[8])
        && !past(u64_at(r, 20), r[9])
        && (*payload || r[28..] == [0; 4])
}

/// Every check, each over the whole sheet before the next; how many instructions, and the offsets of their labels. With TABLE, check 7 looks labels up in a table of
/// all 65,536 numbers, in place of the nested search that the paper asks for.
pub fn check<const TABLE: bool>(s: &[u8], targets: &mut Targets) -> Result<usize, Refused> {
    // 1
    if !s.len().is_multiple_of(BLOCK) || s.len() < 2 * BLOCK || s.len() > MAX_BYTES {
        return Err((1, 0));
    }
    // 2
    for (b, p) in s.chunks_exact(BLOCK).enumerate() {
        let sum = p[0] as u32 + p[1] as u32 + p[4..].iter().map(|x| *x as u32).sum::<u32>();
        let clear = b == 0 || p[4..32].iter().all(|x| *x == 0);
        if u16_at(p, 0) as usize != b || u16_at(p, 2) != sum as u16 || !clear {
            return Err((2, b as u16));
        }
    }
    // 3
    let [n, locals, users, parameters] = [4, 6, 8, 10].map(|at| u16_at(s, at) as usize);
    let fine = (1..=MOST).contains(&n)
        && locals <= 64
        && users <= locals
        && parameters <= users
        && s[12..16] == [0; 4]
        && (locals == 64 || u64_at(s, 16) >> locals == 0)
        && s[24..BLOCK].iter().all(|x| *x == 0)
        && s.len() == BLOCK * (1 + n.div_ceil(PER_BLOCK));
    if !fine {
        return Err((3, 0));
    }
    // 4
    for k in 0..n.div_ceil(PER_BLOCK) * PER_BLOCK {
        let r = record(s, k);
        if if k < n { !record_ok(r) } else { *r != [0; RECORD] } {
            return Err((4, k as u16));
        }
    }
    // 18
    for k in 0..n {
        let r = record(s, k);
        if r[0] == CALL && r[1] == STOP && r[10] == 1 {
            return Err((18, k as u16));
        }
    }
    // 5
    for k in 0..n {
        let r = record(s, k);
        let listed = r[12..12 + r[8] as usize].iter().chain(&r[20..20 + r[9] as usize]);
        if listed.fold(r[10] == 1 && r[11] as usize >= locals, |bad, x| bad | (*x as usize >= locals)) {
            return Err((5, k as u16));
        }
    }
    // 6
    let mut seen = [0u64; MOST];
    let (mut labels, mut places, mut m) = ([0u16; MOST], [0u16; MOST], 0);
    for k in 0..n {
        let r = record(s, k);
        if r[0] == LABEL {
            let l = u16_at(r, 4);
            let (word, bit) = (l as usize / 64, 1 << (l % 64));
            if seen[word] & bit != 0 {
                return Err((6, k as u16));
            }
            seen[word] |= bit;
            (labels[m], places[m]) = (l, k as u16);
            m += 1;
        }
    }
    // 7
    let mut table = [0u16; 65_536];
    if TABLE {
        (0..m).for_each(|j| table[labels[j] as usize] = places[j]);
    }
    for (k, target) in targets.iter_mut().enumerate().take(n) {
        let r = record(s, k);
        for (j, to) in target.iter_mut().enumerate().take(names(r)) {
            let l = u16_at(r, 4 + 2 * j);
            let found = if TABLE {
                (seen[l as usize / 64] >> (l % 64) & 1 == 1).then(|| table[l as usize])
            } else {
                labels[..m].iter().position(|x| *x == l).map(|i| places[i])
            };
            let Some(place) = found else { return Err((7, k as u16)) };
            *to = place;
        }
    }
    // 8
    if falls(record(s, n - 1)) {
        return Err((8, n as u16 - 1));
    }
    Ok(n)
}
