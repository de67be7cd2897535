//! The environment of a function, and what it declares.
mod function;
mod ids;

pub use function::FunctionEnv;
pub use ids::*;

use crate::{
    symbol::{Symbol, SymbolPool},
    ty::Type,
};

#[derive(Debug, Clone, PartialEq, Eq, PartialOrd, Ord, Default)]
pub struct Loc {}
impl Loc {
    pub fn display(&self, _env: &GlobalEnv) -> String {
        unimplemented!()
    }
}

#[derive(Debug, Clone, Copy, PartialEq, Eq)]
pub enum FunctionVisibility {}

/// The environment; it knows no modules. Any function asked for is a native one that is not
/// well known, so its borrow summary is the empty one.
#[derive(Debug, Default)]
pub struct GlobalEnv {
    pool: SymbolPool,
}

impl GlobalEnv {
    pub fn symbol_pool(&self) -> &SymbolPool {
        &self.pool
    }
    pub fn internal_loc(&self) -> Loc {
        Loc {}
    }
    pub fn unknown_loc(&self) -> Loc {
        Loc {}
    }
    pub fn error(&self, _loc: &Loc, msg: &str) {
        panic!("{}", msg)
    }
    pub fn get_function_qid(&self, qid: QualifiedId<FunId>) -> FunctionEnv<'_> {
        FunctionEnv::native(self, qid)
    }
    pub fn get_function(&self, qid: QualifiedId<FunId>) -> FunctionEnv<'_> {
        self.get_function_qid(qid)
    }
    pub fn get_module(&self, _mid: ModuleId) -> ModuleEnv<'_> {
        unimplemented!()
    }
    pub fn get_modules(&self) -> Vec<ModuleEnv<'_>> {
        unimplemented!()
    }
    pub fn get_struct(&self, _qid: QualifiedId<StructId>) -> StructEnv<'_> {
        unimplemented!()
    }
    pub fn get_node_loc(&self, _id: NodeId) -> Loc {
        unimplemented!()
    }
    pub fn get_node_instantiation(&self, _id: NodeId) -> Vec<Type> {
        unimplemented!()
    }
    pub fn display<Id>(&self, _qid: &QualifiedInstId<Id>) -> String {
        unimplemented!()
    }
}

#[derive(Debug, Clone)]
pub struct ModuleEnv<'env> {
    pub env: &'env GlobalEnv,
}
impl<'env> ModuleEnv<'env> {
    pub fn symbol_pool(&self) -> &SymbolPool {
        self.env.symbol_pool()
    }
    pub fn get_name(&self) -> Symbol {
        unimplemented!()
    }
    pub fn get_functions(&self) -> Vec<FunctionEnv<'env>> {
        unimplemented!()
    }
    pub fn into_function(self, _id: FunId) -> FunctionEnv<'env> {
        unimplemented!()
    }
    pub fn into_struct(self, _id: StructId) -> StructEnv<'env> {
        unimplemented!()
    }
    pub fn get_spec_var(&self, _id: SpecVarId) -> &SpecVarDecl {
        unimplemented!()
    }
}

pub struct SpecVarDecl {
    pub name: Symbol,
}

pub struct StructEnv<'env> {
    pub module_env: ModuleEnv<'env>,
}
impl<'env> StructEnv<'env> {
    pub fn symbol_pool(&self) -> &SymbolPool {
        self.module_env.symbol_pool()
    }
    pub fn get_field_by_offset(&'env self, _offset: usize) -> FieldEnv<'env> {
        unimplemented!()
    }
}

pub struct FieldEnv<'env> {
    pub struct_env: &'env StructEnv<'env>,
}
impl<'env> FieldEnv<'env> {
    pub fn get_name(&self) -> Symbol {
        unimplemented!()
    }
    pub fn get_type(&self) -> Type {
        unimplemented!()
    }
}
