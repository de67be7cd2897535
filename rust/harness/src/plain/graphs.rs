//! Borrow graphs.
use sorzibelu::Graph;

/// 12 of every graph, then 13 of every graph.
pub fn check_graphs(graphs: &[Graph]) -> Result<(), (u16, u16)> {
    for (i, g) in graphs.iter().enumerate() {
        if g.nodes > 64 || g.nodes < 64 && g.live >> g.nodes != 0 {
            return Err((12, i as u16));
        }
    }
    for (i, g) in graphs.iter().enumerate() {
        let place = |x: usize| 1000 * i as u16 + x as u16;
        if g.triples.len() % 3 != 0 || g.triples.len() > 3 * 256 {
            return Err((13, place(300)));
        }
        let triples: Vec<&[u32]> = g.triples.chunks(3).collect();
        for (t, triple) in triples.iter().enumerate() {
            if triple[0] >= g.nodes || triple[1] >= g.nodes || t > 0 && *triple <= triples[t - 1] {
                return Err((13, place(t)));
            }
        }
    }
    Ok(())
}

/// A node and its descendants.
fn family(g: Graph, node: u32) -> Vec<u32> {
    let mut all = vec![node];
    let mut next = 0;
    while next < all.len() {
        let parent = all[next];
        for t in g.triples.chunks(3).filter(|t| t[0] == parent) {
            if !all.contains(&t[1]) {
                all.push(t[1]);
            }
        }
        next += 1;
    }
    all
}

fn lives(g: Graph, node: u32) -> bool {
    node < g.nodes && g.live >> node & 1 == 1
}

fn used(g: Graph, node: u32) -> bool {
    node < g.nodes && family(g, node).iter().any(|x| lives(g, *x))
}

fn check_asked(g: Graph, node: u32) -> Result<(), (u16, u16)> {
    check_graphs(&[g])?;
    if node >= g.nodes { Err((14, 0)) } else { Ok(()) }
}

/// The node or a descendant is live.
pub fn in_use(g: Graph, node: u32) -> Result<bool, (u16, u16)> {
    check_asked(g, node)?;
    Ok(used(g, node))
}

/// The node or a descendant has more than one incoming triple.
pub fn conditional(g: Graph, node: u32) -> Result<bool, (u16, u16)> {
    check_asked(g, node)?;
    let incoming = |x: u32| g.triples.chunks(3).filter(|t| t[1] == x).count();
    Ok(family(g, node).iter().any(|x| incoming(*x) > 1))
}

/// The listed nodes, with so many bytes lent.
pub fn dying(g: Graph, next: Graph, room: usize) -> Result<Vec<u8>, (u16, u16)> {
    check_graphs(&[g, next])?;
    if room < g.nodes as usize {
        return Err((9, 0));
    }
    fn visit(g: Graph, next: Graph, node: u32, listed: &mut Vec<u8>) {
        if listed.contains(&(node as u8)) {
            return;
        }
        listed.push(node as u8);
        for parent in (0..g.nodes).filter(|p| g.triples.chunks(3).any(|t| t[0] == *p && t[1] == node)) {
            if !used(next, parent) {
                visit(g, next, parent, listed);
            }
        }
    }
    let mut listed = vec![];
    for node in (0..g.nodes).filter(|x| lives(g, *x) && !lives(next, *x) && !used(next, *x)) {
        visit(g, next, node, &mut listed);
    }
    Ok(listed)
}
