//! Requests on borrow graphs: in use, conditional, dying.
use crate::{
    answer::{no, Answer, No, ENDLESS, TOO_LONG},
    borrow_analysis::{oracle_access as borrow, BorrowInfo},
    bytes::{g32, mask_bit, p32, width},
    operation::the_struct,
    stackless_bytecode::{BorrowEdge, BorrowNode},
};
use std::collections::BTreeSet;

/// The most calls that are let run.
const STEPS: u64 = 4_000_000;

struct Graph {
    live: Vec<bool>,
    triples: Vec<[u32; 3]>,
    children: Vec<Vec<u32>>,
    parents: Vec<Vec<u32>>,
}

fn next32(b: &[u8], at: &mut usize) -> u32 {
    let x = g32(b, *at);
    *at += 4;
    x
}

fn graph(b: &[u8], at: &mut usize, wide: bool) -> Graph {
    next32(b, at); // the node count: the Rust has none
    let m = &b[*at..*at + width(wide)];
    *at += width(wide);
    let live: Vec<bool> = (0..width(wide) * 8).map(|i| mask_bit(m, i)).collect();
    let len = next32(b, at);
    let mut triples = vec![];
    for _ in 0..len {
        triples.push([next32(b, at), next32(b, at), next32(b, at)]);
    }
    let mut children = vec![vec![]; 256];
    let mut parents = vec![vec![]; 256];
    for t in &triples {
        children[t[0] as usize].push(t[1]); // ascending by child, then edge
        parents[t[1] as usize].push(t[0]); // ascending by parent, then edge
    }
    Graph {
        live,
        triples,
        children,
        parents,
    }
}

fn node(i: u32) -> BorrowNode {
    BorrowNode::Reference(i as usize)
}

fn build(g: &Graph) -> BorrowInfo {
    let edge = |e: u32| {
        if e == 0 {
            BorrowEdge::Direct
        } else {
            BorrowEdge::Field(the_struct(), e as usize)
        }
    };
    borrow::graph(
        (0..g.live.len() as u32)
            .filter(|i| g.live[*i as usize])
            .map(node)
            .collect(),
        g.triples
            .iter()
            .map(|t| (node(t[0]), node(t[1]), edge(t[2])))
            .collect(),
    )
}

/// Plays the recursion through beforehand, with memory, to see whether it ends and in how many
/// calls.
struct Play<'a> {
    g: &'a Graph,
    conditional: bool,
    memo: Vec<Option<Option<(bool, u64)>>>,
}

impl<'a> Play<'a> {
    fn new(g: &'a Graph, conditional: bool) -> Self {
        Play {
            g,
            conditional,
            memo: vec![None; 256],
        }
    }
    fn ask(&mut self, n: u32) -> Option<(bool, u64)> {
        let i = n as usize;
        if let Some(r) = self.memo[i] {
            return r; // None within: being worked on, or known not to end
        }
        self.memo[i] = Some(None);
        let g = self.g;
        let yes = if self.conditional {
            g.parents[i].len() > 1
        } else {
            *g.live.get(i).unwrap_or(&false)
        };
        let mut res = (yes, 1u64);
        if !yes {
            for c in &g.children[i] {
                let (y, s) = self.ask(*c)?;
                res.1 = res.1.saturating_add(s);
                if y {
                    res.0 = true;
                    break;
                }
            }
        }
        self.memo[i] = Some(Some(res));
        Some(res)
    }
    fn guard(&mut self, n: u32, total: &mut u64) -> Result<bool, No> {
        match self.ask(n) {
            None => no(ENDLESS, n),
            Some((y, s)) => {
                *total = total.saturating_add(s);
                if *total > STEPS {
                    return no(TOO_LONG, n);
                }
                Ok(y)
            }
        }
    }
}

pub fn query(b: &[u8], wide: bool, conditional: bool) -> Answer {
    let mut at = 0;
    let g = graph(b, &mut at, wide);
    let asked = g32(b, at);
    let expected = Play::new(&g, conditional).guard(asked, &mut 0)?;
    let info = build(&g);
    let res = if conditional {
        info.is_conditional(&node(asked))
    } else {
        info.is_in_use(&node(asked))
    };
    assert_eq!(res, expected);
    Ok(vec![res as u8])
}

pub fn dying(b: &[u8], wide: bool) -> Answer {
    let mut at = 0;
    let here = graph(b, &mut at, wide);
    let next = graph(b, &mut at, wide);
    // The guard, along the calls the Rust will make.
    let mut play = Play::new(&next, false);
    let mut total = 0;
    let mut visited = BTreeSet::new();
    for n in 0..here.live.len() as u32 {
        if here.live[n as usize] && !next.live[n as usize] && !play.guard(n, &mut total)? {
            let mut todo = vec![n];
            while let Some(n) = todo.pop() {
                if visited.insert(n) {
                    for p in &here.parents[n as usize] {
                        if !play.guard(*p, &mut total)? {
                            todo.push(*p);
                        }
                    }
                }
            }
        }
    }
    let res = build(&here).dying_nodes(&build(&next));
    assert_eq!(res.len(), visited.len());
    let mut out = vec![];
    p32(&mut out, res.len() as u32);
    for n in res {
        out.push(n.get_ref().unwrap() as u8);
    }
    Ok(out)
}
