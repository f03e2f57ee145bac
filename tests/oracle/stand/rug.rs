//! Stand-in for the crate `rug`, for the oracle alone. Integers have 128 bits. Two flags tell that a
//! result was outside the signed 64-bit range, and outside 128 bits (then it is cut to the largest
//! number, and the answer is not used if a rule that applied had it). There is no float, no rational
//! and no complex number: their types are empty.
use std::cell::Cell;
use std::cmp::Ordering;
use std::fmt;
use std::ops::*;

thread_local!(static OUT: Cell<bool> = Cell::new(false); static BEYOND: Cell<bool> = Cell::new(false));

/// Whether some result since the last `reset` was outside the signed 64-bit range; outside 128 bits.
pub fn out_of_range() -> bool { OUT.with(|o| o.get()) }
pub fn beyond() -> bool { BEYOND.with(|o| o.get()) }
pub fn reset() { OUT.with(|o| o.set(false)); BEYOND.with(|o| o.set(false)) }

#[derive(Clone, Copy, PartialEq, Eq, PartialOrd, Ord, Hash)]
pub struct Integer(i128);

fn made(x: Option<i128>) -> Integer {
    match x {
        Some(v) if v >= i64::MIN as i128 && v <= i64::MAX as i128 => Integer(v),
        Some(v) => { OUT.with(|o| o.set(true)); Integer(v) }
        None => { OUT.with(|o| o.set(true)); BEYOND.with(|o| o.set(true)); Integer(i128::MAX) }
    }
}

impl Integer {
    pub fn is_zero(&self) -> bool { self.0 == 0 }
    pub fn cmp0(&self) -> Ordering { self.0.cmp(&0) }
    pub fn abs_ref(&self) -> Integer { Integer(self.0.wrapping_abs()) }
    pub fn to_usize(&self) -> Option<usize> { usize::try_from(self.0).ok() }
    pub fn to_u32(&self) -> Option<u32> { u32::try_from(self.0).ok() }
    pub fn to_f64(&self) -> f64 { self.0 as f64 }
    pub fn to_i64(&self) -> Option<i64> { i64::try_from(self.0).ok() }
    pub fn from_str_radix(s: &str, radix: i32) -> Result<Integer, std::num::ParseIntError> {
        i128::from_str_radix(s, radix as u32).map(Integer)
    }
    pub fn gcd(self, other: &Integer) -> Integer {
        let (mut a, mut b) = (self.0, other.0);
        while b != 0 { let t = a % b; a = b; b = t; }
        Integer(a.wrapping_abs())
    }
}
impl fmt::Display for Integer { fn fmt(&self, f: &mut fmt::Formatter<'_>) -> fmt::Result { self.0.fmt(f) } }
impl fmt::Debug for Integer { fn fmt(&self, f: &mut fmt::Formatter<'_>) -> fmt::Result { self.0.fmt(f) } }
impl PartialEq<i32> for Integer { fn eq(&self, o: &i32) -> bool { self.0 == *o as i128 } }
macro_rules! from { ($($t:ty)*) => { $(impl From<$t> for Integer { fn from(n: $t) -> Integer { Integer(n as i128) } })* } }
from!(u8 i32 i64 usize);
macro_rules! op { ($($t:ident $f:ident $c:ident)*) => { $(
    impl $t for Integer { type Output = Integer; fn $f(self, o: Integer) -> Integer { made(self.0.$c(o.0)) } }
    impl $t<&Integer> for Integer { type Output = Integer; fn $f(self, o: &Integer) -> Integer { made(self.0.$c(o.0)) } }
)* } }
op!(Add add checked_add Mul mul checked_mul Div div checked_div);
impl AddAssign for Integer { fn add_assign(&mut self, o: Integer) { *self = *self + o } }
impl MulAssign for Integer { fn mul_assign(&mut self, o: Integer) { *self = *self * o } }
impl Rem<i32> for &Integer { type Output = Integer; fn rem(self, o: i32) -> Integer { Integer(self.0 % o as i128) } }
impl Neg for Integer { type Output = Integer; fn neg(self) -> Integer { made(self.0.checked_neg()) } }

pub mod ops { pub trait Pow<T> { type Output; fn pow(self, e: T) -> Self::Output; } }
impl ops::Pow<u32> for &Integer { type Output = Integer; fn pow(self, e: u32) -> Integer { made(self.0.checked_pow(e)) } }

// No float is ever made, so nothing below runs.
pub trait Assign<T> {}
#[derive(Debug, Clone, PartialEq)]
pub enum Float {}
#[derive(Debug, Clone, PartialEq)]
pub enum Rational {}
#[derive(Debug, Clone, PartialEq)]
pub enum Complex {}
impl<T> Assign<T> for Float {}
impl<T> Assign<T> for Complex {}
impl Complex { pub fn with_val<T>(_: u32, _: T) -> Complex { unimplemented!() } }
impl Float {
    pub fn with_val<T>(_: u32, _: T) -> Float { unimplemented!() }
    pub fn parse(_: &str) -> Result<Float, ()> { unimplemented!() }
    pub fn get_significand(&self) -> Option<Integer> { match *self {} }
    pub fn to_f64(&self) -> f64 { match *self {} }
    pub fn trunc(self) -> Float { self }
    pub fn abs(self) -> Float { self }
    pub fn abs_ref(&self) -> Float { match *self {} }
    pub fn recip(self) -> Float { self }
    pub fn is_zero(&self) -> bool { match *self {} }
    pub fn to_integer(&self) -> Option<Integer> { match *self {} }
    pub fn trunc_fract(self, _: Float) -> (Float, Float) { match self {} }
}
impl fmt::Display for Float { fn fmt(&self, _: &mut fmt::Formatter<'_>) -> fmt::Result { match *self {} } }
impl PartialEq<f64> for Float { fn eq(&self, _: &f64) -> bool { match *self {} } }
impl PartialOrd<f64> for Float { fn partial_cmp(&self, _: &f64) -> Option<Ordering> { match *self {} } }
impl Add for Float { type Output = Float; fn add(self, _: Float) -> Float { self } }
impl Mul for Float { type Output = Float; fn mul(self, _: Float) -> Float { self } }
impl AddAssign for Float { fn add_assign(&mut self, _: Float) {} }
impl MulAssign for Float { fn mul_assign(&mut self, _: Float) {} }
impl Neg for Float { type Output = Float; fn neg(self) -> Float { self } }
impl Sub<Rational> for &Float { type Output = Float; fn sub(self, _: Rational) -> Float { match *self {} } }
pub struct One;
impl Div<&Integer> for One { type Output = Rational; fn div(self, _: &Integer) -> Rational { unimplemented!() } }
impl Rational {
    pub const ONE: One = One;
    pub fn new() -> Rational { unimplemented!() }
    pub fn recip(self) -> Rational { self }
    pub fn cmp0(&self) -> Ordering { match *self {} }
    pub fn into_numer_denom(self) -> (Integer, Integer) { match self {} }
}
impl AddAssign for Rational { fn add_assign(&mut self, _: Rational) {} }
impl Add<&Integer> for Rational { type Output = Rational; fn add(self, _: &Integer) -> Rational { self } }
