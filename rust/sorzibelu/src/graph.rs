//! Borrow graphs that own their triples, their text, and their pages.
//!
//! ```text
//! nodes 3
//! live 2
//! triple 0 1 0
//! triple 1 2 0
//! ```
//!
//! A pair of graphs, for dying, stands in one text: the line `this`, a graph, the line `next`, a graph. docs/TEXT.md has the whole form.
mod page;
mod reasons;
mod text;

pub use page::{conditional_line, dying_lines, in_use_line, page, pair_page};
pub(crate) use page::{reasons, Reason};
pub use text::{is_text, read, write, write_pair, Written};

use crate::Graph;

pub use crate::why::graph as why;

/// A graph that owns its triples.
///
/// ```
/// use sorzibelu::{graph::Owned, in_use};
/// let graph = Owned::new(3, &[2], &[[0, 1, 0], [1, 2, 0]]);
/// assert_eq!(in_use(graph.graph(), 0), Ok(true));
/// ```
#[derive(Clone, Debug, Default, PartialEq, Eq)]
pub struct Owned {
    /// How many nodes, from 0 on.
    pub nodes: u32,
    /// Bit i for node i.
    pub live: u64,
    /// Parent, child, edge, one triple behind the other.
    pub triples: Vec<u32>,
}

impl Owned {
    /// Of live nodes below 64 and whole triples.
    pub fn new(nodes: u32, live: &[u32], triples: &[[u32; 3]]) -> Owned {
        Owned { nodes, live: live.iter().fold(0, |m, x| m | 1 << x), triples: triples.concat() }
    }

    /// As the calls take it.
    pub fn graph(&self) -> Graph<'_> {
        Graph { nodes: self.nodes, live: self.live, triples: &self.triples }
    }
}

/// `nodes 3 live 2 triples 0,1,0 1,2,0`, in one line; what is left of a triple stands last.
///
/// ```
/// use sorzibelu::graph::{line, Owned};
/// assert_eq!(line(Owned::new(3, &[2], &[[0, 1, 0], [1, 2, 0]]).graph()), "nodes 3 live 2 triples 0,1,0 1,2,0");
/// ```
pub fn line(g: Graph) -> String {
    let live: String = live(g).map(|i| format!(" {i}")).collect();
    let triples: String = g.triples.chunks(3).map(|t| format!(" {}", triple(t))).collect();
    format!("nodes {} live{live} triples{triples}", g.nodes)
}

/// The live nodes, ascending.
fn live(g: Graph<'_>) -> impl Iterator<Item = u32> + '_ {
    (0..64).filter(move |i| g.live >> i & 1 == 1)
}

/// `0,1,0`.
fn triple(t: &[u32]) -> String {
    t.iter().map(u32::to_string).collect::<Vec<_>>().join(",")
}
