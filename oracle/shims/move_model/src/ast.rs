//! Expressions, as far as a Prop has them: temporaries, and a call of them.
use crate::{
    model::{GlobalEnv, NodeId},
    ty::Type,
};
use std::{fmt, ops::Deref, rc::Rc};

pub type TempIndex = usize;

#[derive(Debug, Clone, Copy, PartialEq, Eq, PartialOrd, Ord, Hash)]
pub struct MemoryLabel(usize);
impl MemoryLabel {
    pub fn new(idx: usize) -> Self {
        Self(idx)
    }
    pub fn as_usize(self) -> usize {
        self.0
    }
}

#[derive(Debug, Clone, Copy, PartialEq, Eq, PartialOrd, Ord)]
pub enum TraceKind {
    User,
}
impl fmt::Display for TraceKind {
    fn fmt(&self, _: &mut fmt::Formatter<'_>) -> fmt::Result {
        unimplemented!()
    }
}

#[derive(Debug, Clone, Default)]
pub struct Spec {}

/// A shared expression.
#[derive(Debug, Clone, PartialEq, Eq)]
pub struct Exp(Rc<ExpData>);

impl Deref for Exp {
    type Target = ExpData;
    fn deref(&self) -> &ExpData {
        &self.0
    }
}

/// Two of the real cases: a temporary, and a call with arguments.
#[derive(Debug, Clone, PartialEq, Eq)]
pub enum ExpData {
    Temporary(NodeId, TempIndex),
    Call(NodeId, Vec<Exp>),
}

impl ExpData {
    pub fn into_exp(self) -> Exp {
        Exp(Rc::new(self))
    }

    pub fn node_id(&self) -> NodeId {
        match self {
            ExpData::Temporary(id, _) | ExpData::Call(id, _) => *id,
        }
    }

    pub fn call_args(&self) -> &[Exp] {
        match self {
            ExpData::Call(_, args) => args,
            _ => panic!("function must be called on ExpData::Call(...)"),
        }
    }

    fn visit<F: FnMut(&ExpData)>(&self, visitor: &mut F) {
        if let ExpData::Call(_, args) = self {
            for a in args {
                a.visit(visitor);
            }
        }
        visitor(self);
    }

    /// The temporaries used in this expression, each once, by occurrence.
    pub fn used_temporaries(&self, _env: &GlobalEnv) -> Vec<(TempIndex, Type)> {
        let mut temps: Vec<(TempIndex, Type)> = vec![];
        self.visit(&mut |e: &ExpData| {
            if let ExpData::Temporary(_, idx) = e {
                if !temps.iter().any(|(i, _)| i == idx) {
                    temps.push((*idx, Type::Error));
                }
            }
        });
        temps
    }

    pub fn rewrite_node_id<F>(_exp: Exp, _f: &mut F) -> Exp
    where
        F: FnMut(NodeId) -> Option<NodeId>,
    {
        unimplemented!()
    }

    pub fn instantiate_node(_env: &GlobalEnv, _id: NodeId, _targs: &[Type]) -> Option<NodeId> {
        unimplemented!()
    }

    pub fn display(&self, _env: &GlobalEnv) -> String {
        unimplemented!()
    }
}
