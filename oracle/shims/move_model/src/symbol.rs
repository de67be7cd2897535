//! Names of things. The oracle prints none.
#[derive(Debug, Clone, Copy, PartialEq, Eq, PartialOrd, Ord, Hash)]
pub struct Symbol(pub usize);
impl Symbol {
    pub fn display(&self, _pool: &SymbolPool) -> String {
        unimplemented!()
    }
}
#[derive(Debug, Default)]
pub struct SymbolPool {}
impl SymbolPool {
    pub fn string(&self, _s: Symbol) -> std::rc::Rc<String> {
        unimplemented!()
    }
}
