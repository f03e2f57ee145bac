//! Stand-in for symbolic/simplify/step.rs: the steps of addition and multiplication by the paper's numbers,
//! and the names of the others.
#[derive(Debug, Clone, Copy, PartialEq, Eq)]
pub enum Step {
    AddZero = 1, CombineLikeTerms, MultiplyZero, MultiplyOne, ReduceFraction, CombineLikeFactors,
    PowerZero, PowerZeroLeft, PowerOneLeft, PowerOne, PowerPower, DistributiveProperty, DistributePower, I0, I1, I2, I3,
}
