//! Reasons for what the proved calls answered: paths and walks found by search. They only say why, and never what.
use crate::Graph;

/// A shortest path from a node to one with a property, both ends included.
pub(super) fn path(g: Graph, from: u32, goal: impl Fn(u32) -> bool) -> Option<Vec<u32>> {
    let mut came: Vec<Option<u32>> = vec![None; g.nodes as usize];
    let mut met = vec![from];
    let mut at = 0;
    while at < met.len() {
        let node = met[at];
        if goal(node) {
            let mut back = vec![node];
            while let Some(before) = came[back[back.len() - 1] as usize].filter(|_| back[back.len() - 1] != from) {
                back.push(before);
            }
            back.reverse();
            return Some(back);
        }
        for t in g.triples.chunks_exact(3).filter(|t| t[0] == node) {
            if !met.contains(&t[1]) {
                came[t[1] as usize] = Some(node);
                met.push(t[1]);
            }
        }
        at += 1;
    }
    None
}

/// The triples that lead to a node.
pub(super) fn incoming(g: Graph<'_>, node: u32) -> impl Iterator<Item = &[u32]> {
    g.triples.chunks_exact(3).filter(move |t| t[1] == node)
}

/// Whether a node is live; one at or above the count is not.
pub(super) fn is_live(g: Graph, node: u32) -> bool {
    node < g.nodes && g.live >> node & 1 == 1
}

/// The walk of dying, where `used` says for each node whether the next graph uses it: the nodes in order, each with the child through which
/// the walk came, none for a node where it began.
pub(super) fn walk(this: Graph, next: Graph, used: impl Fn(u32) -> bool) -> Vec<(u32, Option<u32>)> {
    fn visit(this: Graph, used: &impl Fn(u32) -> bool, node: u32, came: Option<u32>, listed: &mut Vec<(u32, Option<u32>)>) {
        if listed.iter().any(|(x, _)| *x == node) {
            return;
        }
        listed.push((node, came));
        let mut parents: Vec<u32> = incoming(this, node).map(|t| t[0]).collect();
        parents.sort_unstable();
        parents.dedup();
        for parent in parents.into_iter().filter(|p| !used(*p)) {
            visit(this, used, parent, Some(node), listed);
        }
    }
    let mut listed = vec![];
    for node in (0..this.nodes).filter(|x| is_live(this, *x) && !is_live(next, *x) && !used(*x)) {
        visit(this, &used, node, None, &mut listed);
    }
    listed
}
