//! What the live variable analysis says of a sheet, and what it stands on: flow, live, rewrite, renumber (E1) and labels (E2).
use crate::{
    answer::{no, Answer},
    bytes::{mask, p16, p32, set_bit, set_u16, width},
    function_target::FunctionTarget,
    livevar_analysis::oracle_access as livevar,
    record::{call_op, record},
    sheet::{assemble, Sheet, RECORD},
    stackless_bytecode::{Bytecode, Label},
    stackless_control_flow_graph::{BlockContent, StacklessControlFlowGraph},
    taken, taken_reset,
    target::{data, function},
};
use move_model::model::GlobalEnv;
use std::collections::BTreeSet;

pub fn flow(sheet: &Sheet) -> Answer {
    let cfg = StacklessControlFlowGraph::new_forward(&sheet.code(false));
    let mut rows = vec![];
    for key in cfg.blocks() {
        if let BlockContent::Basic { lower, upper } = cfg.content(key) {
            let mut row = [*lower, *upper, key, 0, 0, 0];
            for (i, s) in cfg.successors(key).iter().enumerate() {
                row[3 + i] = *s;
            }
            rows.push(row);
        }
    }
    rows.sort();
    let mut out = vec![];
    for row in rows {
        for x in row {
            p16(&mut out, x);
        }
    }
    Ok(out)
}

pub fn live(sheet: &Sheet, wide: bool) -> Answer {
    let env = GlobalEnv::default();
    let fenv = function(&env, sheet);
    let data = data(sheet, vec![], vec![]);
    let target = FunctionTarget::new(&fenv, &data);
    let code = sheet.code(false);
    taken_reset();
    let map = livevar::analyze(&target, &code);
    let count = taken();
    assert_eq!(map.len(), sheet.n);
    let mut out = Vec::with_capacity(2 * width(wide) * sheet.n + 4);
    for info in map.values() {
        mask(&mut out, info.before.iter().copied(), wide);
        mask(&mut out, info.after.iter().copied(), wide);
    }
    p32(&mut out, count);
    Ok(out)
}

pub fn rewrite(sheet: &Sheet) -> Answer {
    let env = GlobalEnv::default();
    let fenv = function(&env, sheet);
    let mut data = data(sheet, sheet.code(false), vec![]);
    // As in `process`.
    let next_label = data.next_free_label_index();
    let next_attr = data.next_free_attr_index();
    let code = std::mem::take(&mut data.code);
    let target = FunctionTarget::new(&fenv, &data);
    let real = livevar::analyze_and_transform(&target, next_label, next_attr, code);
    // Once more with each offset as attribute id, to know where an instruction came from.
    let n = sheet.n;
    let shadow = livevar::analyze_and_transform(&target, next_label, n, sheet.code(true));
    assert_eq!(real.len(), shadow.len());
    let kept = shadow
        .iter()
        .position(|b| b.get_attr_id().as_usize() == n)
        .unwrap_or(shadow.len());
    let new_attrs = shadow.len() - kept;
    let new_labels = shadow[kept..]
        .iter()
        .filter(|b| matches!(b, Bytecode::Label(..)))
        .count();
    if next_attr + new_attrs > 65_536 && new_attrs > 0
        || next_label + new_labels > 65_536 && new_labels > 0
    {
        return no(10, 0);
    }
    if real.len() > 1024 {
        return no(11, 0);
    }
    let mut records = vec![];
    for (i, (r, s)) in real.iter().zip(&shadow).enumerate() {
        let attr = r.get_attr_id().as_usize();
        let payload = if i < kept {
            let from = s.get_attr_id().as_usize();
            assert_eq!(attr, sheet.attr(from));
            sheet.payload(from)
        } else {
            assert_eq!(attr, next_attr + i - kept);
            [0; 4]
        };
        let rec = record(r, attr, payload);
        assert_eq!(rec, record(s, attr, payload));
        records.push(rec);
    }
    Ok(assemble(sheet.heading, &records))
}

pub fn eliminate(sheet: &Sheet) -> Answer {
    for (i, r) in sheet.records.iter().enumerate() {
        if matches!(call_op(r), Some(19) | Some(20)) {
            return no(15, i as u32);
        }
    }
    let env = GlobalEnv::default();
    let fenv = function(&env, sheet);
    let data = data(sheet, vec![], vec![]);
    let target = FunctionTarget::new(&fenv, &data);
    let (code, types, _) = livevar::eliminate_unused_vars(&target, sheet.code(true));
    let records: Vec<[u8; RECORD]> = code
        .iter()
        .enumerate()
        .map(|(i, b)| {
            assert_eq!(b.get_attr_id().as_usize(), i);
            record(b, sheet.attr(i), sheet.payload(i))
        })
        .collect();
    let mut heading = sheet.heading;
    set_u16(&mut heading, 6, types.len());
    heading[16..80].fill(0);
    for (i, t) in types.iter().enumerate() {
        if t.is_reference() {
            set_bit(&mut heading[16..48], i);
        }
        if t.is_mutable_reference() {
            set_bit(&mut heading[48..80], i);
        }
    }
    Ok(assemble(heading, &records))
}

/// Where each Label stands by `label_offsets`, and whether it is among the `branch_dests` of an instruction.
pub fn labels(sheet: &Sheet) -> Answer {
    let code = sheet.code(false);
    let named: BTreeSet<Label> = code.iter().flat_map(|b| b.branch_dests()).collect();
    let mut out = vec![];
    for (label, offset) in Bytecode::label_offsets(&code) {
        p16(&mut out, label.as_usize() as u16);
        p16(&mut out, offset);
        out.push(named.contains(&label) as u8);
    }
    Ok(out)
}
