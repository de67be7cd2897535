//! The names of operations, constants and the rest, each at its number.

/// The 55 operations of a Call, each at its sub.
pub const OPERATIONS: [&str; 55] = [
    "Function", "OpaqueCallBegin", "OpaqueCallEnd", "Pack", "Unpack", "MoveTo", "MoveFrom", "Exists", "BorrowLoc",
    "BorrowField", "BorrowGlobal", "GetField", "GetGlobal", "Destroy", "ReadRef", "WriteRef", "FreezeRef", "Havoc",
    "Stop", "IsParent", "WriteBack", "UnpackRef", "PackRef", "UnpackRefDeep", "PackRefDeep", "CastU8", "CastU64",
    "CastU128", "Not", "Add", "Sub", "Mul", "Div", "Mod", "BitOr", "BitAnd", "Xor", "Shl", "Shr", "Lt", "Gt", "Le",
    "Ge", "Or", "And", "Eq", "Neq", "CastU256", "TraceLocal", "TraceReturn", "TraceAbort", "TraceExp",
    "TraceGlobalMem", "EmitEvent", "EventStoreDiverge",
];

/// The three sorts of Assign, each at its sub.
pub const ASSIGNS: [&str; 3] = ["copy", "move", "store"];

/// The seven constants of a Load, each at its sub.
pub const CONSTANTS: [&str; 7] = ["Bool", "U8", "U64", "U128", "U256", "Address", "ByteArray"];

/// The three sorts of Prop, each at its sub.
pub const PROPS: [&str; 3] = ["Assert", "Assume", "Modifies"];

/// The words that an instruction's line starts with, behind its destinations.
pub(crate) const WORDS: [&str; 14] =
    ["copy", "move", "store", "call", "ret", "load", "branch", "jump", "label", "abort", "nop", "savemem", "savespecvar", "prop"];
