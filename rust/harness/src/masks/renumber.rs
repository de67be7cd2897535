//! The sheet with its locals renumbered.
use super::{IS_PARENT, MOST, Refused, WRITE_BACK, check, record, u64_at};
use sorzibelu::sheet::{BLOCK, CALL, RECORD, record_start};

/// The new number of each local, how many there are so far, and which of them are references.
struct Numbers {
    new: [u8; 64],
    count: u8,
    old_references: u64,
    references: u64,
}

const NONE: u8 = 64;

impl Numbers {
    /// The user locals have their own.
    fn of_users(users: u8, old_references: u64) -> Numbers {
        let mut new = [NONE; 64];
        (0..users).for_each(|x| new[x as usize] = x);
        Numbers { new, count: users, old_references, references: old_references & !u64::MAX.checked_shl(users.into()).unwrap_or(0) }
    }

    /// The number of a local that is mentioned: the next one where it has none.
    fn renumber(&mut self, local: &mut u8) {
        let new = &mut self.new[*local as usize & 63];
        if *new == NONE {
            *new = self.count;
            self.references |= (self.old_references >> *local & 1) << self.count;
            self.count += 1;
        }
        *local = *new;
    }
}

fn seal(block: &mut [u8]) {
    let sum: u32 = block[0] as u32 + block[1] as u32 + block[4..].iter().map(|x| *x as u32).sum::<u32>();
    block[2..4].copy_from_slice(&(sum as u16).to_le_bytes());
}

/// The renumbered sheet at the front of `out`: its length.
pub fn renumber(s: &[u8], out: &mut [u8]) -> Result<u32, Refused> {
    let mut targets = [[0; 2]; MOST];
    let n = check::<false>(s, &mut targets)?;
    let hides = |r: &[u8; RECORD]| r[0] == CALL && matches!(r[1], IS_PARENT | WRITE_BACK);
    if let Some(k) = (0..n).find(|k| hides(record(s, *k))) {
        return Err((15, k as u16));
    }
    if out.len() < s.len() {
        return Err((9, 0));
    }
    let out = &mut out[..s.len()];
    out.copy_from_slice(s);
    let mut numbers = Numbers::of_users(s[8], u64_at(s, 16));
    for k in 0..n {
        let at = record_start(k);
        let r: &mut [u8; RECORD] = (&mut out[at..at + RECORD]).try_into().unwrap();
        let (dsts, srcs) = (r[8] as usize, r[9] as usize);
        r[12..12 + dsts].iter_mut().for_each(|x| numbers.renumber(x));
        r[20..20 + srcs].iter_mut().for_each(|x| numbers.renumber(x));
        if r[10] == 1 {
            numbers.renumber(&mut r[11]);
        }
    }
    out[6..8].copy_from_slice(&u16::from(numbers.count).to_le_bytes());
    out[16..24].copy_from_slice(&numbers.references.to_le_bytes());
    out.chunks_exact_mut(BLOCK).for_each(seal);
    Ok(out.len() as u32)
}
