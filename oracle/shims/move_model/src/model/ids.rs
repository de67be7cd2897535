//! Ids of modules and of what they declare.
use crate::ty::Type;

macro_rules! id {
    ($name:ident) => {
        #[derive(Debug, Clone, Copy, PartialEq, Eq, PartialOrd, Ord, Hash)]
        pub struct $name(pub usize);
    };
}
id!(ModuleId);
id!(StructId);
id!(FunId);
id!(SpecVarId);
id!(NodeId);

#[derive(Debug, Clone, Copy, PartialEq, Eq, PartialOrd, Ord, Hash)]
pub struct QualifiedId<Id> {
    pub module_id: ModuleId,
    pub id: Id,
}

#[derive(Debug, Clone, PartialEq, Eq, PartialOrd, Ord, Hash)]
pub struct QualifiedInstId<Id> {
    pub module_id: ModuleId,
    pub inst: Vec<Type>,
    pub id: Id,
}

impl ModuleId {
    pub fn qualified<Id>(self, id: Id) -> QualifiedId<Id> {
        QualifiedId {
            module_id: self,
            id,
        }
    }
    pub fn qualified_inst<Id>(self, id: Id, inst: Vec<Type>) -> QualifiedInstId<Id> {
        QualifiedInstId {
            module_id: self,
            inst,
            id,
        }
    }
}

impl<Id: Clone> QualifiedId<Id> {
    pub fn instantiate(&self, inst: Vec<Type>) -> QualifiedInstId<Id> {
        QualifiedInstId {
            module_id: self.module_id,
            inst,
            id: self.id.clone(),
        }
    }
}

impl<Id: Clone> QualifiedInstId<Id> {
    pub fn instantiate_ref(&self, _params: &[Type]) -> Self {
        unimplemented!()
    }
    pub fn to_qualified_id(&self) -> QualifiedId<Id> {
        QualifiedId {
            module_id: self.module_id,
            id: self.id.clone(),
        }
    }
}
