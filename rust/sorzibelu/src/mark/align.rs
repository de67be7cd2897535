//! Two pieces of code side by side, so that one line left out does not make all the lines behind it wrong.
use crate::sheet::*;

/// What stands beside what: a right instruction, one of the answer, or both.
#[derive(Clone, Copy, Debug, PartialEq, Eq)]
pub(super) enum Pair {
    Both(usize, usize),
    /// Only right.
    Missing(usize),
    /// Only in the answer.
    Extra(usize),
}

const GAP: u32 = 4;

/// How far apart two instructions are; more than two gaps where they should not stand beside each other.
fn cost(a: &Instruction, b: &Instruction) -> u32 {
    if a.kind != b.kind || a.sub != b.sub && a.kind == CALL {
        return 3 * GAP;
    }
    let shape = a.sub == b.sub && a.dsts == b.dsts && a.srcs == b.srcs && a.abort == b.abort;
    let numbers = a.one == b.one && a.two == b.two && a.payload == b.payload;
    match (shape, numbers, a.attr == b.attr) {
        (true, true, true) => 0,
        (true, true, false) => 1,
        (true, false, _) => 2,
        (false, ..) => 5,
    }
}

/// The alignment of least cost, in order.
pub(super) fn align(right: &[Instruction], given: &[Instruction]) -> Vec<Pair> {
    let front = right.iter().zip(given).take_while(|(a, b)| a == b).count();
    let most = right.len().min(given.len()) - front;
    let back = right.iter().rev().zip(given.iter().rev()).take(most).take_while(|(a, b)| a == b).count();
    let (a, b) = (&right[front..right.len() - back], &given[front..given.len() - back]);
    let mut pairs: Vec<Pair> = (0..front).map(|i| Pair::Both(i, i)).collect();
    // least[i][j]: the cost of what comes behind i and j
    let width = b.len() + 1;
    let mut least = vec![0u32; (a.len() + 1) * width];
    for i in (0..=a.len()).rev() {
        for j in (0..=b.len()).rev() {
            let at = |i: usize, j: usize| least[i * width + j];
            let missing = (i < a.len()).then(|| at(i + 1, j) + GAP);
            let extra = (j < b.len()).then(|| at(i, j + 1) + GAP);
            let both = (i < a.len() && j < b.len()).then(|| at(i + 1, j + 1) + cost(&a[i], &b[j]));
            least[i * width + j] = [missing, extra, both].into_iter().flatten().min().unwrap_or(0);
        }
    }
    let (mut i, mut j) = (0, 0);
    while i < a.len() || j < b.len() {
        let at = |i: usize, j: usize| least[i * width + j];
        let now = at(i, j);
        if i < a.len() && j < b.len() && now == at(i + 1, j + 1) + cost(&a[i], &b[j]) {
            pairs.push(Pair::Both(front + i, front + j));
            (i, j) = (i + 1, j + 1);
        } else if i < a.len() && now == at(i + 1, j) + GAP {
            pairs.push(Pair::Missing(front + i));
            i += 1;
        } else {
            pairs.push(Pair::Extra(front + j));
            j += 1;
        }
    }
    pairs.extend((0..back).map(|k| Pair::Both(right.len() - back + k, given.len() - back + k)));
    pairs
}
