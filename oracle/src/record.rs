//! One instruction: from a record of a sheet to the original's bytecode, and back.
use crate::{
    bytes::{g32, set_u16, u16_at},
    operation::*,
    sheet::RECORD,
    stackless_bytecode::*,
};
use move_model::{
    ast::{ExpData, MemoryLabel, TempIndex},
    model::{NodeId, SpecVarId},
};

const ASSIGN_KINDS: [AssignKind; 3] = [AssignKind::Copy, AssignKind::Move, AssignKind::Store];
const PROP_KINDS: [PropKind; 3] = [PropKind::Assert, PropKind::Assume, PropKind::Modifies];

/// The operation of a Call.
pub fn call_op(r: &[u8; RECORD]) -> Option<u8> {
    (r[0] == 1).then_some(r[1])
}

pub fn bytecode(r: &[u8; RECORD], attr: usize) -> Bytecode {
    let attr = AttrId::new(attr);
    let one = Label::new(u16_at(r, 4));
    let two = Label::new(u16_at(r, 6));
    let temps = |at: usize, count: u8| -> Vec<TempIndex> {
        let list = &r[at..at + count as usize];
        list.iter().map(|b| *b as usize).collect()
    };
    let dests = temps(12, r[8]);
    let srcs = temps(20, r[9]);
    let payload = g32(r, 28) as usize;
    match r[0] {
        0 => Bytecode::Assign(attr, dests[0], srcs[0], ASSIGN_KINDS[r[1] as usize]),
        1 => {
            let aa = (r[10] == 1).then(|| AbortAction(one, r[11] as usize));
            Bytecode::Call(attr, dests, operation(r[1], payload), srcs, aa)
        }
        2 => Bytecode::Ret(attr, srcs),
        3 => Bytecode::Load(attr, dests[0], constant(r[1], payload)),
        4 => Bytecode::Branch(attr, one, two, srcs[0]),
        5 => Bytecode::Jump(attr, one),
        6 => Bytecode::Label(attr, one),
        7 => Bytecode::Abort(attr, srcs[0]),
        8 => Bytecode::Nop(attr),
        9 => Bytecode::SaveMem(attr, MemoryLabel::new(payload), the_struct()),
        10 => {
            let var = MODULE.qualified_inst(SpecVarId(0), vec![]);
            Bytecode::SaveSpecVar(attr, MemoryLabel::new(payload), var)
        }
        11 => {
            let args = srcs
                .into_iter()
                .map(|s| ExpData::Temporary(NodeId(0), s).into_exp())
                .collect();
            let kind = PROP_KINDS[r[1] as usize];
            Bytecode::Prop(attr, kind, ExpData::Call(NodeId(payload), args).into_exp())
        }
        k => panic!("kind {}", k),
    }
}

/// An instruction back into a record; the payload and the attribute id are given.
pub fn record(bc: &Bytecode, attr: usize, payload: [u8; 4]) -> [u8; RECORD] {
    let mut r = [0; RECORD];
    set_u16(&mut r, 2, attr);
    r[28..32].copy_from_slice(&payload);
    let label = |r: &mut [u8; RECORD], at: usize, l: &Label| set_u16(r, at, l.as_usize());
    let temps = |r: &mut [u8; RECORD], count: usize, at: usize, v: &[TempIndex]| {
        r[count] = v.len() as u8;
        for (i, x) in v.iter().enumerate() {
            r[at + i] = *x as u8;
        }
    };
    let dests = |r: &mut [u8; RECORD], v: &[TempIndex]| temps(r, 8, 12, v);
    let srcs = |r: &mut [u8; RECORD], v: &[TempIndex]| temps(r, 9, 20, v);
    match bc {
        Bytecode::Assign(_, d, s, k) => {
            r[0] = 0;
            r[1] = ASSIGN_KINDS.iter().position(|x| x == k).unwrap() as u8;
            dests(&mut r, &[*d]);
            srcs(&mut r, &[*s]);
        }
        Bytecode::Call(_, d, op, s, aa) => {
            r[0] = 1;
            r[1] = operation_index(op);
            dests(&mut r, d);
            srcs(&mut r, s);
            if let Some(AbortAction(l, t)) = aa {
                r[10] = 1;
                r[11] = *t as u8;
                label(&mut r, 4, l);
            }
        }
        Bytecode::Ret(_, s) => {
            r[0] = 2;
            srcs(&mut r, s);
        }
        Bytecode::Load(_, d, c) => {
            r[0] = 3;
            r[1] = constant_index(c);
            dests(&mut r, &[*d]);
        }
        Bytecode::Branch(_, a, b, s) => {
            r[0] = 4;
            label(&mut r, 4, a);
            label(&mut r, 6, b);
            srcs(&mut r, &[*s]);
        }
        Bytecode::Jump(_, l) => {
            r[0] = 5;
            label(&mut r, 4, l);
        }
        Bytecode::Label(_, l) => {
            r[0] = 6;
            label(&mut r, 4, l);
        }
        Bytecode::Abort(_, s) => {
            r[0] = 7;
            srcs(&mut r, &[*s]);
        }
        Bytecode::Nop(_) => r[0] = 8,
        Bytecode::SaveMem(..) => r[0] = 9,
        Bytecode::SaveSpecVar(..) => r[0] = 10,
        Bytecode::Prop(_, k, e) => {
            r[0] = 11;
            r[1] = PROP_KINDS.iter().position(|x| x == k).unwrap() as u8;
            let v: Vec<TempIndex> = e
                .call_args()
                .iter()
                .map(|a| match &**a {
                    ExpData::Temporary(_, i) => *i,
                    _ => panic!("no temporary"),
                })
                .collect();
            srcs(&mut r, &v);
        }
    }
    r
}
