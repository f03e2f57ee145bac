//! The published Rust's answer to tables. A table is a line of hexadecimal digits on standard input;
//! its answer is a line on standard output:
//!
//!   0 OPENINGS STEPS RECORDS   simplified; the steps a digit each (`-` for none)
//!   7 PLACE                    an integer left the signed 64-bit range
//!   0 - STEPS beyond           simplified, but an integer of the result has no record
//!   panic                      the published code panicked
//!
//! With no argument it is the published `simplify_with_steps` as it is (which counts no openings:
//! `-`). Each argument switches one change on:
//!
//!   driver   document 01's driver, over the published rules
//!   range    a step that leaves the signed 64-bit range refuses the table
//!   plain    no complexity is computed (the published driver computes one and does not use it)
//!
//! Two changes more are in the build, the rest kept in order and all integers in the coefficient: see
//! `build`. `bench N` answers all tables N times with nothing written, for counting instructions.
#![allow(dead_code, unused, mismatched_lifetime_syntaxes)]
mod approx;
mod primitive;
mod records;
mod symbolic;

use std::cell::Cell;
use std::io::{BufRead, Write};
use std::panic::{catch_unwind, resume_unwind, set_hook, AssertUnwindSafe};
use symbolic::expr::SymExpr;
use symbolic::simplify::{inner_simplify_with, rules, step::Step};

#[derive(Clone, Copy, Default)]
struct Changes { driver: bool, range: bool, plain: bool }

/// What ends a run that leaves the range: the number of steps completed before.
struct Refused(usize);

thread_local!(static RANGE: Cell<bool> = Cell::new(false); static STEPS: Cell<usize> = Cell::new(0);
    static BEYOND: Cell<bool> = Cell::new(false));

/// A rule applied, and left the signed 64-bit range on the way or not, and 128 bits or not.
pub fn applied(out: bool, beyond: bool) {
    let steps = STEPS.with(|s| s.get());
    if out && RANGE.with(|r| r.get()) { resume_unwind(Box::new(Refused(steps))); }
    if beyond { BEYOND.with(|b| b.set(true)); }
    STEPS.with(|s| s.set(steps + 1));
}

/// Document 01's driver over the published rules: the tree, and whether a step or an opening was in it.
fn drive(e: &SymExpr, steps: &mut Vec<Step>, opened: &mut usize) -> (SymExpr, bool) {
    let mut e = e.clone();
    let mut ever = false;
    loop {
        if let Some(new) = rules::all(&e, steps) { e = new; ever = true; continue; }
        let mut changed = false;
        let before = *opened;
        let mut one = |m: &SymExpr, opened: &mut usize| { let (r, c) = drive(m, steps, opened); changed |= c; r };
        e = match &e {
            SymExpr::Primary(_) => return (e, ever),
            SymExpr::Add(ms) => {
                let mut out = vec![];
                for m in ms { match one(m, opened) { SymExpr::Add(x) => { *opened += 1; out.extend(x) } x => out.push(x) } }
                SymExpr::Add(out).downgrade()
            }
            SymExpr::Mul(ms) => {
                let mut out = vec![];
                for m in ms { match one(m, opened) { SymExpr::Mul(x) => { *opened += 1; out.extend(x) } x => out.push(x) } }
                SymExpr::Mul(out).downgrade()
            }
            SymExpr::Exp(b, x) => { let b = one(b, opened); let x = one(x, opened); SymExpr::Exp(Box::new(b), Box::new(x)) }
        };
        if !changed && *opened == before { return (e, ever); }
        ever = true;
    }
}

/// Steps, openings where they are counted, and the records where the result has them.
type Answer = (Vec<Step>, Option<usize>, Option<Vec<u8>>);

fn answer(table: &[u8], changes: Changes) -> Answer {
    let e = records::tree(table, &mut 0, records::numbered);
    STEPS.with(|s| s.set(0));
    BEYOND.with(|b| b.set(false));
    RANGE.with(|r| r.set(changes.range));
    let mut steps = vec![];
    let mut opened = 0;
    let (result, steps) = if changes.driver {
        (drive(&e, &mut steps, &mut opened).0, steps)
    } else if changes.plain {
        (inner_simplify_with(&e, |_| 0, &mut steps).0, steps)
    } else {
        symbolic::simplify_with_steps(&e)
    };
    let mut written = vec![];
    let fits = records::put(&result, &mut written) && !BEYOND.with(|b| b.get());
    (steps, changes.driver.then(|| opened), fits.then(|| written))
}

fn line(table: &[u8], changes: Changes) -> String {
    match catch_unwind(AssertUnwindSafe(|| answer(table, changes))) {
        Ok((steps, opened, records)) => {
            let opened = opened.map_or("-".to_string(), |n| n.to_string());
            let digits: String = steps.iter().map(|s| (b'0' + *s as u8) as char).collect();
            let digits = if digits.is_empty() { "-".to_string() } else { digits };
            let records = records.map_or("beyond".to_string(), |r| r.iter().map(|x| format!("{:02x}", x)).collect());
            format!("0 {} {} {}", opened, digits, records)
        }
        Err(why) => match why.downcast_ref::<Refused>() {
            Some(Refused(place)) => format!("7 {}", place),
            None => "panic".to_string(),
        },
    }
}

fn run() {
    let mut changes = Changes::default();
    let mut times = None;
    let mut arguments = std::env::args().skip(1);
    while let Some(word) = arguments.next() {
        match word.as_str() {
            "driver" => changes.driver = true,
            "range" => changes.range = true,
            "plain" => changes.plain = true,
            "bench" => times = arguments.next().and_then(|n| n.parse::<usize>().ok()),
            _ => { eprintln!("no such change: {}", word); std::process::exit(2); }
        }
    }
    let tables = std::io::stdin().lock().lines().map(|l| records::bytes(&l.unwrap()));
    if let Some(times) = times {
        let tables: Vec<Vec<u8>> = tables.collect();
        let mut written = 0;
        let start = std::time::Instant::now();
        for _ in 0..times { for t in &tables { written += answer(t, changes).2.map_or(0, |r| r.len()); } }
        println!("{} ns, {} bytes written", start.elapsed().as_nanos(), written);
        return;
    }
    let mut out = std::io::BufWriter::new(std::io::stdout());
    for t in tables { writeln!(out, "{}", line(&t, changes)).unwrap(); }
}

fn main() {
    set_hook(Box::new(|_| {}));
    // the published code recurses and clones as deep as the tree is
    let done = std::thread::Builder::new().stack_size(512 << 20).spawn(run).unwrap().join();
    if done.is_err() { eprintln!("oracle: the input has a line that is no table"); std::process::exit(2); }
}
