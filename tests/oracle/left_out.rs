//! The published rules that are not the paper's, each file's tried on the root of a table: tables on
//! standard input, a line of hexadecimal digits each; `FORMULA: FILE gives FORMULA` on standard output, or
//! `FORMULA: nothing applies`. Symbols 0 to 25 are named a to z, so that symbol 8 is the published code's i.
#![allow(dead_code, unused, mismatched_lifetime_syntaxes)]
mod approx;
mod primitive;
mod records;
mod symbolic;

use std::io::BufRead;
use symbolic::simplify::{rules, step::Step};

pub fn applied(_: bool, _: bool) {}

fn lettered(symbol: u8) -> String { ((b'a' + symbol % 26) as char).to_string() }

fn main() {
    for line in std::io::stdin().lock().lines() {
        let e = records::tree(&records::bytes(&line.unwrap()), &mut 0, lettered);
        let steps: &mut Vec<Step> = &mut vec![];
        let found = rules::imaginary::all(&e, steps).map(|r| ("imaginary.rs", r))
            .or_else(|| rules::power::all(&e, steps).map(|r| ("power.rs", r)))
            .or_else(|| rules::distribute::all(&e, steps).map(|r| ("distribute.rs", r)));
        match found {
            Some((file, r)) => println!("{}: {} gives {}", e, file, r),
            None => println!("{}: nothing applies", e),
        }
    }
}
