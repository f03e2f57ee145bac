//! Stand-in for symbolic/expr/iter.rs: the sub-expressions in left-to-right post-order. Only
//! `default_complexity` walks it.
use super::{Primary, SymExpr};

pub struct ExprIter<'a>(std::vec::IntoIter<&'a SymExpr>);

impl<'a> ExprIter<'a> {
    pub fn new(expr: &'a SymExpr) -> Self {
        fn visit<'a>(e: &'a SymExpr, out: &mut Vec<&'a SymExpr>) {
            match e {
                SymExpr::Primary(Primary::Call(_, args)) => args.iter().for_each(|a| visit(a, out)),
                SymExpr::Primary(_) => {},
                SymExpr::Add(m) | SymExpr::Mul(m) => m.iter().for_each(|a| visit(a, out)),
                SymExpr::Exp(b, x) => { visit(b, out); visit(x, out); },
            }
            out.push(e);
        }
        let mut out = Vec::new();
        visit(expr, &mut out);
        ExprIter(out.into_iter())
    }
}

impl<'a> Iterator for ExprIter<'a> {
    type Item = &'a SymExpr;
    fn next(&mut self) -> Option<&'a SymExpr> { self.0.next() }
}
