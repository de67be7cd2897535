//! The borrow analysis run on a sheet, for its graphs (E10) and its summary (E11).
use crate::{
    answer::{no, No},
    borrow_analysis::{oracle_access as borrow, BorrowInfo},
    function_target::FunctionTarget,
    function_target_pipeline::{FunctionTargetsHolder, FunctionVariant},
    livevar_analysis::oracle_access as livevar,
    operation::{CALLEE, MODULE},
    record::call_op,
    sheet::Sheet,
    stackless_bytecode::{AssignKind, BorrowNode, Bytecode},
    stackless_control_flow_graph::StacklessControlFlowGraph,
    target::{data, function},
    walk::ret_walk,
};
use move_binary_format::file_format::CodeOffset;
use move_model::{
    ast::TempIndex,
    model::GlobalEnv,
    ty::{PrimitiveType, Type},
};

pub struct Borrows {
    pub code: Vec<Bytecode>,
    pub map: borrow::CodeMap,
    /// 1: a Move or Store met two parents; 2: uniting their children gives something else.
    pub flags: u8,
    pub blocks: u32,
    pub max_triples: u32,
    /// Summary of the whole original `analyze`, where it was safe to run it and all Rets agree on
    /// the marks at each place.
    pub summary: Option<BorrowInfo>,
}

/// The Rets that are reached: offset, what they return, the graph before.
pub fn rets<'a>(
    code: &'a [Bytecode],
    map: &'a borrow::CodeMap,
) -> impl Iterator<Item = (usize, &'a Vec<TempIndex>, &'a BorrowInfo)> {
    code.iter().enumerate().filter_map(|(i, bc)| match bc {
        Bytecode::Ret(_, temps) => map
            .get(&(i as CodeOffset))
            .map(|info| (i, temps, &info.before)),
        _ => None,
    })
}

/// Refusal 20.
fn check_borrows(sheet: &Sheet) -> Result<(), No> {
    for (i, r) in sheet.records.iter().enumerate() {
        let bad = match call_op(r) {
            Some(10) => true,
            Some(8) => r[8] == 0 || r[9] == 0,
            Some(9) => r[8] == 0 || r[9] == 0 || r[28..32] == [0; 4],
            _ => false,
        };
        if bad {
            return no(20, i as u32);
        }
    }
    Ok(())
}

/// One return type a place, and whether all Rets agree on it.
fn return_types(sheet: &Sheet, code: &[Bytecode]) -> (Vec<Type>, bool) {
    let mut returns: Vec<Type> = vec![];
    let mut agree = true;
    for bc in code {
        if let Bytecode::Ret(_, temps) = bc {
            for (i, t) in temps.iter().enumerate() {
                let ty = sheet.type_of(*t);
                if i == returns.len() {
                    returns.push(ty);
                } else {
                    agree &= returns[i].is_mutable_reference() == ty.is_mutable_reference();
                }
            }
        }
    }
    (returns, agree)
}

/// The one callee: native, not well known, so with an empty summary; no mutable return types.
fn callee(env: &GlobalEnv, sheet: &Sheet) -> FunctionTargetsHolder {
    let value = Type::Primitive(PrimitiveType::U64);
    let mut callee_data = data(sheet, vec![], vec![value; 256]);
    callee_data.local_types = vec![];
    let mut targets = FunctionTargetsHolder::default();
    targets.insert_target_data(
        &env.get_function_qid(MODULE.qualified(CALLEE))
            .get_qualified_id(),
        FunctionVariant::Baseline,
        callee_data,
    );
    targets
}

/// Whether a Move or Store meets two parents.
fn two_parents(sheet: &Sheet, code: &[Bytecode], map: &borrow::CodeMap) -> bool {
    let node = |x: &usize| {
        if sheet.is_ref(*x) {
            BorrowNode::Reference(*x)
        } else {
            BorrowNode::LocalRoot(*x)
        }
    };
    code.iter().enumerate().any(|(i, bc)| match bc {
        Bytecode::Assign(_, d, s, AssignKind::Move | AssignKind::Store) => {
            map.get(&(i as CodeOffset)).is_some_and(|info| {
                d != s
                    && borrow::is_parent(&info.before, &node(d))
                    && borrow::is_parent(&info.before, &node(s))
            })
        }
        _ => false,
    })
}

fn same_map(a: &borrow::CodeMap, b: &borrow::CodeMap) -> bool {
    a.len() == b.len()
        && a.iter()
            .zip(b)
            .all(|((i, x), (j, y))| i == j && x.before == y.before && x.after == y.after)
}

pub fn borrows(sheet: &Sheet, united: bool) -> Result<Borrows, No> {
    check_borrows(sheet)?;
    let env = GlobalEnv::default();
    let fenv = function(&env, sheet);
    let code = sheet.code(false);
    let (returns, agree) = return_types(sheet, &code);
    let mut data = data(sheet, vec![], returns);
    let live = livevar::analyze(&FunctionTarget::new(&fenv, &data), &code);
    data.annotations.set(livevar::annotation(live));
    let target = FunctionTarget::new(&fenv, &data);
    let targets = callee(&env, sheet);

    let map = borrow::code_map(&target, &targets, &code, united);

    let mut flags = 0;
    if two_parents(sheet, &code, &map) {
        flags |= 1;
        if !same_map(&map, &borrow::code_map(&target, &targets, &code, !united)) {
            flags |= 2;
        }
    }

    // Where it is safe, the whole original must say the same.
    let mut summary = None;
    let safe = |(_, temps, info): (usize, &Vec<TempIndex>, &BorrowInfo)| {
        let w = ret_walk(info, temps);
        !w.cycle && w.paths < 10_000
    };
    if !united && rets(&code, &map).all(safe) {
        let (whole, sum) = borrow::analyze(&target, &targets, &code);
        assert!(same_map(&whole, &map), "analyze and its first half differ");
        if agree {
            summary = Some(sum);
        }
    }

    let max_triples = map
        .values()
        .flat_map(|i| [&i.before, &i.after])
        .map(|info| borrow::triples(info).len())
        .max()
        .unwrap_or(0) as u32;
    let blocks = StacklessControlFlowGraph::new_forward(&code).num_blocks() as u32 - 2;
    Ok(Borrows {
        code,
        map,
        flags,
        blocks,
        max_triples,
        summary,
    })
}
