//! A sheet as a function of the original.
use crate::{
    function_target::FunctionData, function_target_pipeline::FunctionVariant, sheet::Sheet,
    stackless_bytecode::Bytecode,
};
use move_model::{
    model::{FunctionEnv, GlobalEnv},
    ty::Type,
};

pub fn data(sheet: &Sheet, code: Vec<Bytecode>, return_types: Vec<Type>) -> FunctionData {
    FunctionData {
        variant: FunctionVariant::Baseline,
        type_args: vec![],
        code,
        local_types: sheet.local_types(),
        return_types,
        acquires_global_resources: vec![],
        locations: Default::default(),
        loop_invariants: Default::default(),
        debug_comments: Default::default(),
        vc_infos: Default::default(),
        annotations: Default::default(),
        name_to_index: Default::default(),
        modify_targets: Default::default(),
        ghost_type_param_count: 0,
    }
}

pub fn function<'a>(env: &'a GlobalEnv, sheet: &Sheet) -> FunctionEnv<'a> {
    FunctionEnv::stub(env, sheet.parameters, sheet.user_locals)
}
