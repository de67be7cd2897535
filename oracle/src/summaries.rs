//! The borrow summary of a sheet (E11).
use crate::{
    answer::{Answer, No, TOO_LONG},
    borrow_analysis::{oracle_access as borrow, BorrowInfo},
    borrow_graphs::{borrow_head, edge_no, node_no, ranks},
    borrows::{borrows, rets},
    bytes::p32,
    function_target::FunctionTarget,
    sheet::Sheet,
    stackless_bytecode::BorrowNode,
    target::{data, function},
    walk::{ret_walk, Walk},
};
use move_model::model::GlobalEnv;
use std::collections::BTreeSet;

/// Root, place, length and edges of the path.
type Entry = [u32; 19];

fn entries(sheet: &Sheet, summary: &BorrowInfo) -> BTreeSet<Entry> {
    let ranks = ranks(sheet);
    borrow::triples(summary)
        .iter()
        .map(|(p, c, e)| {
            let place = match c {
                BorrowNode::ReturnPlaceholder(i) => *i as u32,
                other => panic!("leaf {:?}", other),
            };
            let path: Vec<u32> = e.flatten().into_iter().map(edge_no).collect();
            let mut entry = [0; 19];
            entry[0] = node_no(sheet, &ranks, p);
            entry[1] = place;
            entry[2] = path.len() as u32;
            entry[3..3 + path.len()].copy_from_slice(&path);
            entry
        })
        .collect()
}

pub fn summarize(sheet: &Sheet, united: bool) -> Answer {
    let b = borrows(sheet, united)?;
    let rets: Vec<_> = rets(&b.code, &b.map).collect();
    let walks: Vec<Walk> = rets.iter().map(|(_, t, i)| ret_walk(i, t)).collect();
    let limits: [(u8, fn(&Walk) -> bool); 3] = [
        (22, |w| w.cycle),
        (23, |w| w.longest > 16),
        (TOO_LONG, |w| w.paths > 200_000),
    ];
    for (number, passed) in limits {
        if let Some(i) = walks.iter().position(passed) {
            return Err(No(number, rets[i].0 as u32, borrow_head(&b)));
        }
    }
    // As in `analyze`, but each Ret under the marks of the locals it returns.
    let env = GlobalEnv::default();
    let fenv = function(&env, sheet);
    let mut summary = BorrowInfo::default();
    for (_, temps, info) in &rets {
        let returns = temps.iter().map(|t| sheet.type_of(*t)).collect();
        let data = data(sheet, vec![], returns);
        let target = FunctionTarget::new(&fenv, &data);
        borrow::summarize(&mut summary, &target, info, temps);
    }
    borrow::consolidate(&mut summary);
    if let Some(whole) = &b.summary {
        assert!(whole == &summary, "analyze and summarize differ");
    }
    let entries = entries(sheet, &summary);
    let mut out = borrow_head(&b);
    p32(&mut out, entries.len() as u32);
    for x in entries.iter().flatten() {
        p32(&mut out, *x);
    }
    Ok(out)
}
