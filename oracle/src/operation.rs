//! The numbers of the operations and constants of document 01, and the ids that stand in them.
use crate::stackless_bytecode::*;
use move_model::{
    ast::TraceKind,
    model::{FunId, ModuleId, NodeId, QualifiedInstId, StructId},
};

/// The one module, struct and callee of a sheet.
pub const MODULE: ModuleId = ModuleId(0);
pub const STRUCT: StructId = StructId(0);
pub const CALLEE: FunId = FunId(0);

pub fn the_struct() -> QualifiedInstId<StructId> {
    MODULE.qualified_inst(STRUCT, vec![])
}

/// From a list of numbered cases, the function from a number and a payload to the case, and the
/// one from a case to its number.
macro_rules! numbered {
    ($type:ident, $of:ident($payload:ident), $index:ident,
     $($number:literal $case:ident $(($($field:expr),*))?;)*) => {
        pub fn $of(number: u8, $payload: usize) -> $type {
            match number {
                $($number => $type::$case $(($($field),*))?,)*
                other => panic!(concat!(stringify!($of), " {}"), other),
            }
        }

        pub fn $index(case: &$type) -> u8 {
            match case {
                $($type::$case { .. } => $number,)*
            }
        }
    };
}

numbered! { Constant, constant(payload), constant_index,
    0 Bool(payload & 1 == 1);
    1 U8(payload as u8);
    2 U64(payload as u64);
    3 U128(payload as u128);
    4 U256(ethnum::U256(0, payload as u128));
    5 Address(num::BigUint::from(payload));
    6 ByteArray((payload as u32).to_le_bytes().to_vec());
}

numbered! { Operation, operation(payload), operation_index,
    0 Function(MODULE, CALLEE, vec![]);
    1 OpaqueCallBegin(MODULE, CALLEE, vec![]);
    2 OpaqueCallEnd(MODULE, CALLEE, vec![]);
    3 Pack(MODULE, STRUCT, vec![]);
    4 Unpack(MODULE, STRUCT, vec![]);
    5 MoveTo(MODULE, STRUCT, vec![]);
    6 MoveFrom(MODULE, STRUCT, vec![]);
    7 Exists(MODULE, STRUCT, vec![]);
    8 BorrowLoc;
    9 BorrowField(MODULE, STRUCT, vec![], payload);
    10 BorrowGlobal(MODULE, STRUCT, vec![]);
    11 GetField(MODULE, STRUCT, vec![], payload);
    12 GetGlobal(MODULE, STRUCT, vec![]);
    13 Destroy;
    14 ReadRef;
    15 WriteRef;
    16 FreezeRef;
    17 Havoc(HavocKind::Value);
    18 Stop;
    19 IsParent(BorrowNode::LocalRoot(0), BorrowEdge::Direct);
    20 WriteBack(BorrowNode::LocalRoot(0), BorrowEdge::Direct);
    21 UnpackRef;
    22 PackRef;
    23 UnpackRefDeep;
    24 PackRefDeep;
    25 CastU8;
    26 CastU64;
    27 CastU128;
    28 Not;
    29 Add;
    30 Sub;
    31 Mul;
    32 Div;
    33 Mod;
    34 BitOr;
    35 BitAnd;
    36 Xor;
    37 Shl;
    38 Shr;
    39 Lt;
    40 Gt;
    41 Le;
    42 Ge;
    43 Or;
    44 And;
    45 Eq;
    46 Neq;
    47 CastU256;
    48 TraceLocal(payload);
    49 TraceReturn(payload);
    50 TraceAbort;
    51 TraceExp(TraceKind::User, NodeId(payload));
    52 TraceGlobalMem(the_struct());
    53 EmitEvent;
    54 EventStoreDiverge;
}
