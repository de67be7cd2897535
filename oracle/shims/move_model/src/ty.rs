//! Types: values and references.
use crate::{
    model::{GlobalEnv, ModuleId, StructId},
    symbol::Symbol,
};

#[derive(Debug, Clone, PartialEq, Eq, PartialOrd, Ord, Hash)]
pub enum PrimitiveType {
    U64,
}

#[derive(Debug, Clone, PartialEq, Eq, PartialOrd, Ord, Hash)]
pub enum Type {
    Primitive(PrimitiveType),
    Struct(ModuleId, StructId, Vec<Type>),
    /// A reference; the flag says whether it is mutable.
    Reference(bool, Box<Type>),
    Error,
}

impl Type {
    pub fn is_reference(&self) -> bool {
        matches!(self, Type::Reference(_, _))
    }
    pub fn is_mutable_reference(&self) -> bool {
        matches!(self, Type::Reference(true, _))
    }
    pub fn instantiate_slice(_slice: &[Type], _params: &[Type]) -> Vec<Type> {
        unimplemented!()
    }
    pub fn instantiate(&self, _params: &[Type]) -> Type {
        unimplemented!()
    }
    pub fn require_struct(&self) -> (ModuleId, StructId, &[Type]) {
        unimplemented!()
    }
    pub fn display(&self, _context: &TypeDisplayContext<'_>) -> String {
        unimplemented!()
    }
}

pub enum TypeDisplayContext<'a> {
    WithEnv {
        env: &'a GlobalEnv,
        type_param_names: Option<Vec<Symbol>>,
    },
}
