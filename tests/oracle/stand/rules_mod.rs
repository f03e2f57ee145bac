//! Stand-in for symbolic/simplify/rules/mod.rs, cut to addition and multiplication. `all` also tells
//! the oracle whether a rule applied and whether it left the signed 64-bit range, or 128 bits, on the
//! way; what was computed for a rule that did not apply is not judged. The rules that are not the
//! paper's are there for `left_out` alone, and `all` does not try them.
pub mod add;
pub mod multiply;
#[cfg(left_out)]
pub mod distribute;
#[cfg(left_out)]
pub mod imaginary;
#[cfg(left_out)]
pub mod power;

use crate::symbolic::{expr::SymExpr, simplify::step::Step, step_collector::StepCollector};

pub(crate) fn do_add(expr: &SymExpr, f: impl Fn(&[SymExpr]) -> Option<SymExpr>) -> Option<SymExpr> {
    match expr { SymExpr::Add(terms) => f(terms), _ => None }
}

pub(crate) fn do_multiply(expr: &SymExpr, f: impl Fn(&[SymExpr]) -> Option<SymExpr>) -> Option<SymExpr> {
    match expr { SymExpr::Mul(factors) => f(factors), _ => None }
}

#[cfg(left_out)]
pub(crate) fn do_power(expr: &SymExpr, f: impl Fn(&SymExpr, &SymExpr) -> Option<SymExpr>) -> Option<SymExpr> {
    match expr { SymExpr::Exp(base, exponent) => f(base, exponent), _ => None }
}

pub fn all(expr: &SymExpr, step_collector: &mut dyn StepCollector<Step>) -> Option<SymExpr> {
    rug::reset();
    let result = add::all(expr, step_collector).or_else(|| multiply::all(expr, step_collector));
    if result.is_some() { crate::applied(rug::out_of_range(), rug::beyond()); }
    result
}
