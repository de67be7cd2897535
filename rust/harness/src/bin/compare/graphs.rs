//! Graphs: every call beside the original where it finishes, and the plain reading.
use crate::judge::*;
use harness::{lent::lend, oracle::*, plain};
use sorzibelu::{conditional, dying, graph, graph::Owned, in_use};
use std::collections::BTreeMap;

impl Run {
    /// The questions of a pair of graphs that the original can be asked: every node of both kinds, and dying.
    pub fn requests(a: &Owned, b: &Owned) -> Vec<(u8, Vec<u8>)> {
        let mut all = vec![];
        if plain::check_graphs(&[a.graph()]).is_ok() {
            for node in 0..a.nodes {
                let asked = [payload(a.graph()), node.to_le_bytes().to_vec()].concat();
                all.push((IN_USE, asked.clone()));
                all.push((CONDITIONAL, asked));
            }
            if plain::check_graphs(&[a.graph(), b.graph()]).is_ok() {
                all.push((DYING, [payload(a.graph()), payload(b.graph())].concat()));
            }
        }
        all
    }

    /// The original's answer, none where it does not finish.
    pub fn finished(&mut self, a: &Answer) -> Option<Vec<u8>> {
        if a.0 == 200 || a.0 == 201 {
            self.unfinished += 1;
            return None;
        }
        Some(if a.0 == 0 { a.1.clone() } else { vec![a.0, 255, 255] })
    }

    pub fn judge_graphs(&mut self, met: &mut BTreeMap<u16, usize>, a: &Owned, b: &Owned, answers: &[Answer]) -> Result<(), String> {
        let (g, next) = (a.graph(), b.graph());
        let mut answers = answers.iter();
        let fine = plain::check_graphs(&[g]).is_ok();
        let mut meet = |number: u16| *met.entry(number).or_default() += 1;
        let beyond = [a.nodes, a.nodes.wrapping_add(1), u32::MAX];
        for node in (0..a.nodes.min(66)).chain(beyond) {
            let used = (in_use(g, node).map_err(pair), plain::in_use(g, node));
            let cond = (conditional(g, node).map_err(pair), plain::conditional(g, node));
            for (name, (ours, plain)) in [("in use", used), ("conditional", cond)] {
                same(&format!("{name} of node {node}; there the plain reading"), ours, plain)?;
                match plain {
                    Err((number, _)) => meet(number),
                    Ok(yes) if fine => {
                        if let Some(there) = self.finished(answers.next().unwrap()) {
                            same(&format!("{name} of node {node}; there the original"), vec![yes as u8], there)?;
                        }
                    }
                    Ok(_) => {}
                }
            }
        }
        let all = plain::dying(g, next, 64);
        if let Ok(listed) = &all
            && let Some(there) = self.finished(answers.next().unwrap())
        {
            let here = [&(listed.len() as u32).to_le_bytes()[..], listed].concat();
            same("dying; here the plain reading, there the original", here, there)?;
        }
        let exact = if all.is_ok() { a.nodes as usize } else { 64 };
        for (room, wanted) in self.rooms(exact, &all) {
            let wanted = if all.is_err() { all.clone() } else { wanted };
            same(&format!("dying, {room} bytes lent; here the plain reading"), plain::dying(g, next, room), wanted.clone())?;
            let (answer, wrote) = lend(room, self.turn, |c| c as usize, |out| dying(g, next, out))?;
            same(&format!("dying, {room} bytes lent"), answer.map(|_| wrote), wanted.clone())?;
            if let Err((number, _)) = wanted {
                meet(number);
            }
        }
        Ok(())
    }

    pub fn graphs(&mut self, part: &mut Part, pairs: &[(Owned, Owned)]) {
        let lists: Vec<Vec<(u8, Vec<u8>)>> = pairs.iter().map(|(a, b)| Run::requests(a, b)).collect();
        let requests: Vec<(u8, &[u8])> = lists.iter().flatten().map(|(op, p)| (*op, &p[..])).collect();
        let answers = pump(&mut self.oracle, &requests);
        part.questions += requests.len();
        let mut at = 0;
        for ((a, b), list) in pairs.iter().zip(&lists) {
            part.sheets += 1;
            at += list.len();
            if self.judge_graphs(&mut part.met, a, b, &answers[at - list.len()..at]).is_err() {
                part.differences += 1;
                let size = |(a, b): &(Owned, Owned)| (a.triples.len() + b.triples.len(), a.nodes);
                let found = (a.clone(), b.clone());
                if self.smallest_graphs.as_ref().is_none_or(|old| size(&found) < size(old)) {
                    self.smallest_graphs = Some(found);
                }
            }
        }
    }

    pub fn graphs_differ(&mut self, a: &Owned, b: &Owned) -> Option<String> {
        let list = Run::requests(a, b);
        let requests: Vec<(u8, &[u8])> = list.iter().map(|(op, p)| (*op, &p[..])).collect();
        let answers = pump(&mut self.oracle, &requests);
        self.judge_graphs(&mut BTreeMap::new(), a, b, &answers).err()
    }

    /// Drops triples and live nodes while the graphs still differ; then prints them.
    pub fn print_graphs(&mut self, (mut a, mut b): (Owned, Owned)) {
        loop {
            let mut smaller = vec![];
            for (i, g) in [&a, &b].into_iter().enumerate() {
                let mut less = vec![];
                for t in 0..g.triples.len().div_ceil(3) {
                    let mut h = g.clone();
                    h.triples.drain(3 * t..(3 * t + 3).min(h.triples.len()));
                    less.push(h);
                }
                less.extend((0..64).filter(|x| g.live >> x & 1 == 1).map(|x| Owned { live: g.live & !(1 << x), ..g.clone() }));
                smaller.extend(less.into_iter().map(|h| if i == 0 { (h, b.clone()) } else { (a.clone(), h) }));
            }
            match smaller.into_iter().find(|(x, y)| self.graphs_differ(x, y).is_some()) {
                Some(found) => (a, b) = found,
                None => break,
            }
        }
        println!("{}\nnext {}\n{}", graph::line(a.graph()), graph::line(b.graph()), self.graphs_differ(&a, &b).unwrap_or_default());
    }
}
