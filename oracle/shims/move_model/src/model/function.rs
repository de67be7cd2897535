//! What the analyses ask of a function.
use super::{
    FunId, FunctionVisibility, GlobalEnv, Loc, ModuleEnv, ModuleId, QualifiedId, StructId,
};
use crate::{
    ast::{Exp, Spec},
    symbol::{Symbol, SymbolPool},
};
use std::collections::{BTreeMap, BTreeSet};

/// A function: its parameter count and the count of user declared locals.
#[derive(Debug, Clone)]
pub struct FunctionEnv<'env> {
    pub module_env: ModuleEnv<'env>,
    id: QualifiedId<FunId>,
    native: bool,
    parameters: usize,
    locals: usize,
}

impl<'env> FunctionEnv<'env> {
    /// Not in the real crate: makes the function a sheet stands for.
    pub fn stub(env: &'env GlobalEnv, parameters: usize, locals: usize) -> Self {
        FunctionEnv {
            module_env: ModuleEnv { env },
            id: ModuleId(0).qualified(FunId(1)),
            native: false,
            parameters,
            locals,
        }
    }
    pub(super) fn native(env: &'env GlobalEnv, id: QualifiedId<FunId>) -> Self {
        FunctionEnv {
            module_env: ModuleEnv { env },
            id,
            native: true,
            parameters: 0,
            locals: 0,
        }
    }
    pub fn get_qualified_id(&self) -> QualifiedId<FunId> {
        self.id
    }
    pub fn get_id(&self) -> FunId {
        self.id.id
    }
    pub fn is_native(&self) -> bool {
        self.native
    }
    pub fn is_intrinsic(&self) -> bool {
        false
    }
    pub fn is_native_or_intrinsic(&self) -> bool {
        self.is_native() || self.is_intrinsic()
    }
    pub fn is_well_known(&self, _name: &str) -> bool {
        false
    }
    pub fn get_parameter_count(&self) -> usize {
        self.parameters
    }
    pub fn get_local_count(&self) -> usize {
        self.locals
    }
    pub fn is_temporary(&self, idx: usize) -> bool {
        idx >= self.locals
    }
    pub fn get_full_name_str(&self) -> String {
        "stub".to_string()
    }
    pub fn get_modify_targets(&self) -> BTreeMap<QualifiedId<StructId>, Vec<Exp>> {
        BTreeMap::new()
    }
    pub fn get_loc(&self) -> Loc {
        Loc {}
    }
    pub fn symbol_pool(&self) -> &SymbolPool {
        self.module_env.symbol_pool()
    }
    pub fn get_local_name(&self, idx: usize) -> Symbol {
        Symbol(idx)
    }
    pub fn get_name(&self) -> Symbol {
        unimplemented!()
    }
    pub fn get_identifier(&self) -> String {
        unimplemented!()
    }
    pub fn is_opaque(&self) -> bool {
        unimplemented!()
    }
    pub fn is_exposed(&self) -> bool {
        unimplemented!()
    }
    pub fn visibility(&self) -> FunctionVisibility {
        unimplemented!()
    }
    pub fn visibility_str(&self) -> &str {
        unimplemented!()
    }
    pub fn is_mutating(&self) -> bool {
        unimplemented!()
    }
    pub fn get_type_parameters(&self) -> Vec<()> {
        unimplemented!()
    }
    pub fn get_type_parameter_count(&self) -> usize {
        unimplemented!()
    }
    pub fn get_spec(&'env self) -> &'env Spec {
        unimplemented!()
    }
    pub fn is_pragma_true(&self, _name: &str, _default: impl FnOnce() -> bool) -> bool {
        unimplemented!()
    }
    pub fn get_return_count(&self) -> usize {
        unimplemented!()
    }
    pub fn get_called_functions(&self) -> BTreeSet<QualifiedId<FunId>> {
        unimplemented!()
    }
}
