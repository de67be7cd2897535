//! Rewriting of the temporaries in an expression.
use crate::{
    ast::{Exp, ExpData, TempIndex},
    model::{GlobalEnv, NodeId},
};

pub enum RewriteTarget {
    LocalVar(crate::symbol::Symbol),
    Temporary(TempIndex),
}

pub trait ExpRewriterFunctions {
    fn rewrite_temporary(&mut self, id: NodeId, idx: TempIndex) -> Option<Exp>;

    /// Rewrites the expression, arguments from left to right.
    fn rewrite_exp(&mut self, exp: Exp) -> Exp {
        match &*exp {
            ExpData::Temporary(id, idx) => {
                if let Some(new) = self.rewrite_temporary(*id, *idx) {
                    new
                } else {
                    exp.clone()
                }
            }
            ExpData::Call(id, args) => {
                let args = args.iter().map(|a| self.rewrite_exp(a.clone())).collect();
                ExpData::Call(*id, args).into_exp()
            }
        }
    }
}

pub struct ExpRewriter<'env, 'rewriter> {
    _env: &'env GlobalEnv,
    replacer: &'rewriter mut dyn FnMut(NodeId, RewriteTarget) -> Option<Exp>,
}

impl<'env, 'rewriter> ExpRewriter<'env, 'rewriter> {
    pub fn new<F>(env: &'env GlobalEnv, replacer: &'rewriter mut F) -> Self
    where
        F: FnMut(NodeId, RewriteTarget) -> Option<Exp>,
    {
        Self {
            _env: env,
            replacer,
        }
    }
}

impl<'env, 'rewriter> ExpRewriterFunctions for ExpRewriter<'env, 'rewriter> {
    fn rewrite_temporary(&mut self, id: NodeId, idx: TempIndex) -> Option<Exp> {
        (*self.replacer)(id, RewriteTarget::Temporary(idx))
    }
}
