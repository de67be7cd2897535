//! Random borrow graphs without and with cycles, and broken ones.
use crate::random::Rng;
use sorzibelu::graph::Owned;

/// Ascending triples over so many nodes; without a cycle, each leads up in a random order of the nodes, or in their own.
fn triples(rng: &mut Rng, nodes: usize, cycles: bool) -> Vec<u32> {
    let mut order: Vec<usize> = (0..nodes).collect();
    if rng.chance(2) {
        for i in (1..nodes).rev() {
            order.swap(i, rng.below(i + 1));
        }
    }
    let mut all: Vec<[u32; 3]> = vec![];
    let count = if nodes < 2 && !cycles || nodes == 0 { 0 } else if rng.chance(4) { rng.below(257) } else { rng.below(2 * nodes + 1) };
    for _ in 0..count {
        let (parent, child) = if cycles {
            (rng.below(nodes), rng.below(nodes))
        } else {
            let child = 1 + rng.below(nodes - 1);
            let near = if rng.chance(2) { child.saturating_sub(3) } else { 0 };
            (near + rng.below(child - near), child)
        };
        let edge = if rng.chance(8) { u32::MAX - rng.below(2) as u32 } else { rng.below(3) as u32 };
        all.push([order[parent] as u32, order[child] as u32, edge]);
    }
    all.sort();
    all.dedup();
    all.concat()
}

/// Some of the nodes.
fn some(rng: &mut Rng, nodes: usize) -> u64 {
    let all = if nodes == 64 { u64::MAX } else { (1 << nodes) - 1 };
    let few = rng.number() & rng.number() & rng.number();
    all & if rng.chance(4) { rng.number() } else { few }
}

pub fn random(rng: &mut Rng, nodes: usize, cycles: bool) -> Owned {
    Owned { nodes: nodes as u32, live: some(rng, nodes), triples: triples(rng, nodes, cycles) }
}

/// A graph and the next one: some of its triples, or others, and now and then another node count.
pub fn pair(rng: &mut Rng, cycles: bool) -> (Owned, Owned) {
    let nodes = match rng.below(8) {
        0 => 64,
        1 => rng.below(65),
        2 => 1 + rng.below(64),
        _ => 1 + rng.below(12),
    };
    let this = random(rng, nodes, cycles);
    let others = if rng.chance(4) { rng.below(65) } else { nodes };
    let mut next = random(rng, others, cycles);
    if rng.chance(2) && others >= nodes {
        next.triples = this.triples.chunks(3).filter(|_| !rng.chance(4)).flatten().copied().collect();
    }
    (this, next)
}

/// Breaks 12 or 13 of a graph, at any place; now and then it stays fine.
pub fn broken(rng: &mut Rng, g: &mut Owned) {
    let count = g.triples.len() / 3;
    match rng.below(10) {
        0 => g.nodes = [65, 66, 1 << 16, 1 << 31, u32::MAX][rng.below(5)],
        1 if g.nodes < 64 => g.live |= 1 << (g.nodes + rng.below(64 - g.nodes as usize) as u32),
        2 => g.triples.truncate((3 * count).saturating_sub(1 + rng.below(2))),
        3 => g.triples.extend([0, u32::MAX, 7, 7, 7].into_iter().take(1 + rng.below(5))),
        4 => g.triples.resize(3 * (257 + rng.below(3)), rng.number() as u32 >> 26),
        5 if count > 0 => {
            let at = 3 * rng.below(count) + rng.below(2);
            g.triples[at] = [g.nodes, g.nodes.wrapping_add(1), u32::MAX][rng.below(3)];
        }
        6 if count > 1 => {
            let at = rng.below(count - 1);
            let (from, to) = (3 * at, 3 * at + 3);
            if rng.chance(2) {
                g.triples.copy_within(from..from + 3, to);
            } else {
                (0..3).for_each(|i| g.triples.swap(from + i, to + i));
            }
        }
        7 if count > 1 => {
            // nodes as before, the edge not above
            let at = 3 * (1 + rng.below(count - 1));
            g.triples[at] = g.triples[at - 3];
            g.triples[at + 1] = g.triples[at - 2];
            g.triples[at + 2] = g.triples[at - 1].saturating_sub(rng.below(2) as u32);
        }
        8 => g.nodes = g.nodes.saturating_sub(1),
        _ => {}
    }
}
