//! Blocks, their keys and successors, and the flow table.
use super::{check, exits, falls, names, record, Refused, Targets, MOST};

/// The blocks of a sheet: by offset their bounds, successors and keys; by key the block's place.
pub(super) struct Blocks {
    pub(super) count: usize,
    pub(super) lower: [u16; MOST],
    pub(super) upper: [u16; MOST],
    pub(super) next: [[u16; 2]; MOST],
    pub(super) nexts: [u8; MOST],
    pub(super) key: [u16; MOST],
    pub(super) of_key: [u16; MOST + 2],
}

pub(super) fn blocks(s: &[u8], n: usize, targets: &Targets) -> Blocks {
    let mut starts = [false; MOST + 1];
    starts[0] = true;
    for k in 0..n {
        let r = record(s, k);
        let named = names(r);
        targets[k][..named].iter().for_each(|t| starts[*t as usize] = true);
        if named > 0 || exits(r) {
            starts[k + 1] = true;
        }
    }
    let mut b = Blocks {
        count: 0,
        lower: [0; MOST],
        upper: [0; MOST],
        next: [[0; 2]; MOST],
        nexts: [0; MOST],
        key: [0; MOST],
        of_key: [0; MOST + 2],
    };
    for k in (0..n).filter(|k| starts[*k]) {
        if b.count > 0 {
            b.upper[b.count - 1] = k as u16 - 1;
        }
        b.lower[b.count] = k as u16;
        b.count += 1;
    }
    b.upper[b.count - 1] = n as u16 - 1;
    // keys by offset: the successors', then the block's own
    let mut keys = [0u16; MOST];
    let mut given = 2;
    for i in 0..b.count {
        let u = b.upper[i] as usize;
        let r = record(s, u);
        let (mut next, mut m) = ([0; 2], names(r));
        next[..m].copy_from_slice(&targets[u][..m]);
        if falls(r) {
            next[m] = u as u16 + 1;
            m += 1;
        }
        if m == 2 && next[1] < next[0] {
            next.swap(0, 1);
        }
        for o in next[..m].iter().chain([&b.lower[i]]) {
            let key = &mut keys[*o as usize];
            if *key == 0 {
                *key = given;
                given += 1;
            }
        }
        b.nexts[i] = m as u8;
        b.next[i] = next.map(|o| keys[o as usize]);
    }
    for i in 0..b.count {
        b.key[i] = keys[b.lower[i] as usize];
        b.of_key[b.key[i] as usize] = i as u16;
    }
    b
}

/// The flow table: how many blocks.
pub fn flow(s: &[u8], table: &mut [u16]) -> Result<u32, Refused> {
    let mut targets = [[0; 2]; MOST];
    let n = check::<false>(s, &mut targets)?;
    let b = blocks(s, n, &targets);
    if table.len() < 6 * b.count {
        return Err((9, 0));
    }
    for (i, row) in table.chunks_exact_mut(6).take(b.count).enumerate() {
        let m = b.nexts[i] as usize;
        row.copy_from_slice(&[b.lower[i], b.upper[i], b.key[i], 0, 0, 0]);
        row[3..3 + m].copy_from_slice(&b.next[i][..m]);
        if exits(record(s, b.upper[i] as usize)) {
            row[3] = 1;
        }
    }
    Ok(b.count as u32)
}
