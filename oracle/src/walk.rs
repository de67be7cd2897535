//! What the walk of `summarize` at one Ret would do, found out beforehand.
use crate::{
    borrow_analysis::{oracle_access as borrow, BorrowInfo},
    stackless_bytecode::BorrowNode,
};
use move_model::ast::TempIndex;
use std::collections::BTreeMap;

pub struct Walk {
    pub cycle: bool,
    pub longest: u64,
    pub paths: u64,
}

pub fn ret_walk(info: &BorrowInfo, temps: &[TempIndex]) -> Walk {
    let mut parents: BTreeMap<BorrowNode, Vec<BorrowNode>> = BTreeMap::new();
    for (p, c, _) in borrow::triples(info) {
        parents.entry(c).or_default().push(p);
    }
    // None: being worked on.
    let mut done: BTreeMap<BorrowNode, Option<(u64, u64)>> = BTreeMap::new();
    fn go(
        parents: &BTreeMap<BorrowNode, Vec<BorrowNode>>,
        done: &mut BTreeMap<BorrowNode, Option<(u64, u64)>>,
        n: &BorrowNode,
    ) -> Option<(u64, u64)> {
        if let Some(r) = done.get(n) {
            return *r;
        }
        let ps = match parents.get(n) {
            None => return Some((0, 1)),
            Some(ps) => ps,
        };
        done.insert(n.clone(), None);
        let (mut longest, mut paths) = (0u64, 0u64);
        for p in ps {
            let (l, c) = go(parents, done, p)?;
            longest = longest.max(l + 1);
            paths = paths.saturating_add(c);
        }
        done.insert(n.clone(), Some((longest, paths)));
        Some((longest, paths))
    }
    let mut walk = Walk {
        cycle: false,
        longest: 0,
        paths: 0,
    };
    for t in temps {
        let n = BorrowNode::Reference(*t);
        if parents.contains_key(&n) {
            match go(&parents, &mut done, &n) {
                None => walk.cycle = true,
                Some((l, c)) => {
                    walk.longest = walk.longest.max(l);
                    walk.paths = walk.paths.saturating_add(c);
                }
            }
        }
    }
    walk
}
