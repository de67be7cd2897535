//! Random class sets: sheets laid end to end, now and then with a block that is numbered otherwise.
use crate::{
    Bytes,
    plain::{self, CHECKS},
    random,
    random::Rng,
};
use sorzibelu::sheet::{BLOCK, MAX_BYTES};

/// Sheets by the check that turns them away, first those that none does.
pub struct Pool([Vec<Vec<u8>>; 1 + CHECKS.len()]);

impl Pool {
    /// So many sheets of each sort, in whole blocks: random ones and damaged copies of them, of the shape that `shape` draws.
    pub fn new(rng: &mut Rng, each: usize, mut shape: impl FnMut(&mut Rng) -> random::Shape) -> Pool {
        let mut all: [Vec<Vec<u8>>; 1 + CHECKS.len()] = Default::default();
        while all.iter().any(|some| some.len() < each) {
            let shape = shape(rng);
            let s = random::sheet(rng, shape).bytes();
            let damaged = (0..10).map(|_| random::damage(rng, &s)).collect::<Vec<_>>();
            for s in damaged.into_iter().chain([s]).filter(|s| fits(s)) {
                let some = &mut all[plain::check(&s).map_or_else(|(number, _)| plain::rank(number), |()| 0)];
                if some.len() < each {
                    some.push(s);
                }
            }
        }
        Pool(all)
    }

    /// One of them: a third accepted, else of any sort alike.
    pub fn sheet(&self, rng: &mut Rng) -> &[u8] {
        let some = &self.0[if rng.chance(3) { 0 } else { rng.below(self.0.len()) }];
        &some[rng.below(some.len())]
    }
}

/// It is one sheet of a class set: whole blocks, and of them the first alone is numbered 0.
pub fn fits(s: &[u8]) -> bool {
    !s.is_empty() && s.len().is_multiple_of(BLOCK) && s.chunks(BLOCK).enumerate().all(|(b, block)| (block[..2] == [0, 0]) == (b == 0))
}

/// How many sheets: 0 to 20, often 16 or close to it, often few.
pub fn count(rng: &mut Rng) -> usize {
    match rng.below(4) {
        0 => 16,
        1 => rng.below(21),
        2 => 1 + rng.below(4),
        _ => 14 + rng.below(5),
    }
}

/// So many sheets laid end to end. Seldom a heading is numbered otherwise, so that its sheet is glued onto the one before it, or a block 0, so that its sheet is
/// cut in two, or the first block otherwise, or the length is no multiple of 512, or both of these.
pub fn class<'a>(rng: &mut Rng, count: usize, mut sheet: impl FnMut(&mut Rng) -> &'a [u8]) -> Vec<u8> {
    let (mut all, mut headings) = (vec![], vec![]);
    for _ in 0..count {
        headings.push(all.len() / BLOCK);
        all.extend(sheet(rng));
    }
    let blocks = all.len() / BLOCK;
    let mut number = |block: usize, number: u16| all[BLOCK * block..][..2].copy_from_slice(&number.to_le_bytes());
    let way = rng.below(24);
    match way {
        0 | 10 if count > 0 => number(0, 1 + rng.below(3) as u16),
        1 if count > 0 => number(0, 256),
        2..5 if count > 1 => number(headings[1 + rng.below(count - 1)], 1 << rng.below(16)),
        5..8 if blocks > 0 => number(rng.below(blocks), 0),
        _ => {}
    }
    match way {
        8 if blocks > 0 => all.truncate(BLOCK * blocks - 1 - rng.below(BLOCK - 1)),
        9 | 10 => all.resize(BLOCK * blocks + 1 + rng.below(BLOCK - 1), 0),
        _ => {}
    }
    all
}

/// A sheet's first block, and others behind it up to so many, none of them numbered 0.
pub fn longer(s: &[u8], blocks: usize) -> Vec<u8> {
    let mut t = s[..BLOCK].to_vec();
    t.resize(BLOCK * blocks, 0);
    t.chunks_mut(BLOCK).enumerate().skip(1).for_each(|(b, block)| block[..2].copy_from_slice(&(1 + b as u16 % 65_535).to_le_bytes()));
    t
}

/// One block more than the longest sheet has.
pub const TOO_MANY_BLOCKS: usize = MAX_BYTES / BLOCK + 1;
