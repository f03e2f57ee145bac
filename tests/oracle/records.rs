//! Trees from the records of a table and back.
use crate::primitive::int;
use crate::symbolic::expr::{Primary, SymExpr};

/// The tree at record `at`, which moves on to the record after it; `name` names a symbol.
pub fn tree(b: &[u8], at: &mut usize, name: fn(u8) -> String) -> SymExpr {
    let r = &b[*at * 16..*at * 16 + 16];
    *at += 1;
    let count = u16::from_le_bytes([r[2], r[3]]);
    match r[0] {
        0 => SymExpr::Primary(Primary::Integer(int(i64::from_le_bytes(r[8..16].try_into().unwrap())))),
        1 => SymExpr::Primary(Primary::Symbol(name(r[8]))),
        2 => SymExpr::Add((0..count).map(|_| tree(b, at, name)).collect()),
        3 => SymExpr::Mul((0..count).map(|_| tree(b, at, name)).collect()),
        4 => { let x = tree(b, at, name); SymExpr::Exp(Box::new(x), Box::new(tree(b, at, name))) }
        _ => panic!("kind"),
    }
}

/// A name by which `put` finds the symbol again.
pub fn numbered(symbol: u8) -> String { format!("s{}", symbol) }

/// Appends the records of a tree; false where an integer has none.
pub fn put(e: &SymExpr, out: &mut Vec<u8>) -> bool {
    let mut r = [0u8; 16];
    let mut members: Vec<&SymExpr> = vec![];
    match e {
        SymExpr::Primary(Primary::Integer(n)) => match n.to_i64() {
            Some(n) => r[8..16].copy_from_slice(&n.to_le_bytes()),
            None => return false,
        },
        SymExpr::Primary(Primary::Symbol(s)) => { r[0] = 1; r[8] = s[1..].parse().unwrap(); }
        SymExpr::Add(m) => { r[0] = 2; r[2..4].copy_from_slice(&(m.len() as u16).to_le_bytes()); members.extend(m); }
        SymExpr::Mul(m) => { r[0] = 3; r[2..4].copy_from_slice(&(m.len() as u16).to_le_bytes()); members.extend(m); }
        SymExpr::Exp(b, x) => { r[0] = 4; members.push(b); members.push(x); }
        _ => panic!("a float or a call"),
    }
    out.extend(r);
    members.into_iter().all(|m| put(m, out))
}

/// The bytes of a line of hexadecimal digits.
pub fn bytes(line: &str) -> Vec<u8> {
    (0..line.len() / 2).map(|i| u8::from_str_radix(&line[2 * i..2 * i + 2], 16).unwrap()).collect()
}
