//! What no instruction and no plain heading can say: records and blocks field by field, read and listed.
use super::{line, list, words::*, Fault};
use crate::sheet::*;
use std::{collections::BTreeMap, fmt::Write};

/// A record field by field: `raw kind 12 sources 1 t0`. The counts stand before the lists' places.
pub(crate) fn record(w: &mut Words) -> Result<[u8; RECORD], Fault> {
    let mut r = [0; RECORD];
    let mut seen: Vec<&str> = vec![];
    w.word("raw")?;
    while let Some(field) = w.next() {
        let name = if field.starts_with(['#', '@']) { &field[..1] } else { field };
        if seen.contains(&name) {
            return w.fault(format!("{}: a second one of this sort", quoted(field)));
        }
        seen.push(name);
        match name {
            "kind" => r[0] = w.number("", "a kind from 0 to 255")?,
            "sub" => r[1] = w.number("", "a sub from 0 to 255")?,
            "one" => r[4..6].copy_from_slice(&w.label()?.to_le_bytes()),
            "two" => r[6..8].copy_from_slice(&w.label()?.to_le_bytes()),
            "destinations" | "sources" => {
                let (count, places) = if name == "sources" { (9, 20) } else { (8, 12) };
                r[count] = w.number("", "a count from 0 to 255")?;
                let xs = w.locals(8)?;
                r[places..places + xs.len()].copy_from_slice(&xs);
            }
            "flag" => r[10] = w.number("", "a flag from 0 to 255")?,
            "into" => r[11] = w.local()?,
            "#" => r[28..].copy_from_slice(&value::<u32>(w, field, "a payload such as #5")?.to_le_bytes()),
            "@" => r[2..4].copy_from_slice(&value::<u16>(w, field, "an attribute id such as @7")?.to_le_bytes()),
            _ => {
                let names = ["kind", "sub", "one", "two", "destinations", "sources", "flag", "into"];
                return w.fault(format!("{} is no field of a record{}", quoted(field), hint(field, names)));
            }
        }
    }
    Ok(r)
}

/// The number behind a field's first letter.
fn value<N: TryFrom<u64>>(w: &Words, field: &str, wanted: &str) -> Result<N, Fault> {
    match digits(&field[1..], "").map(|d| d.parse::<u64>().ok().and_then(|n| N::try_from(n).ok())) {
        Some(Some(n)) => Ok(n),
        Some(None) => w.fault(format!("{} is too large for {wanted}", quoted(field))),
        None => w.fault(format!("{} is not {wanted}", quoted(field))),
    }
}

/// The line of a record: an instruction's where it has one, else its fields that are not 0.
pub(crate) fn listed(r: &[u8; RECORD]) -> String {
    if let Ok(i) = Instruction::try_from(r) {
        let shown = list::instruction(&i);
        let again = lines(&shown).next().and_then(|mut w| line::instruction(&mut w).ok());
        if again.is_some_and(|i| <[u8; RECORD]>::try_from(&i) == Ok(*r)) {
            return shown;
        }
    }
    let u16_at = |at: usize| u16::from_le_bytes([r[at], r[at + 1]]);
    let mut s = format!("raw kind {}", r[0]);
    let mut field = |name: &str, value: u32| {
        if value != 0 {
            write!(s, " {name}{value}").unwrap();
        }
    };
    field("sub ", r[1].into());
    field("one L", u16_at(4).into());
    field("two L", u16_at(6).into());
    field("flag ", r[10].into());
    field("into t", r[11].into());
    for (name, count, places) in [("destinations", r[8], &r[12..20]), ("sources", r[9], &r[20..28])] {
        let shown = (count.min(8) as usize).max(places.iter().rposition(|x| *x != 0).map_or(0, |i| i + 1));
        if count != 0 || shown != 0 {
            write!(s, " {name} {count}").unwrap();
            places[..shown].iter().for_each(|x| write!(s, " t{x}").unwrap());
        }
    }
    let mut field = |name: &str, value: u32| {
        if value != 0 {
            write!(s, " {name}{value}").unwrap();
        }
    };
    field("#", u32::from_le_bytes([r[28], r[29], r[30], r[31]]));
    field("@", u16_at(2).into());
    s
}

/// What lines of the form `block 1 number 7 check 99 at 4 ff 01` say of a block.
#[derive(Clone, Debug, Default)]
pub(crate) struct Block {
    pub line: usize,
    pub number: Option<u16>,
    pub check: Option<u16>,
    /// Bytes, each with its place from 4 to 511.
    pub bytes: Vec<(usize, u8)>,
}

/// Adds a `block` line to what is known of the blocks.
pub(crate) fn block(w: &mut Words, blocks: &mut BTreeMap<usize, Block>) -> Result<(), Fault> {
    w.word("block")?;
    let b: u32 = w.number("", "a block's place from 0")?;
    let mut new = blocks.remove(&(b as usize)).unwrap_or(Block { line: w.line, ..Default::default() });
    while let Some(field) = w.next() {
        match field {
            "number" if new.number.is_none() => new.number = Some(w.number("", "a block's number")?),
            "check" if new.check.is_none() => new.check = Some(w.number("", "a block's check")?),
            "number" | "check" => return w.fault(format!("block {b} has a {field} already")),
            "at" => {
                let mut at: u16 = w.number("", "a place in the block from 4 to 511")?;
                while let Some(byte) = w.peek().filter(|x| x.len() == 2).and_then(|x| u8::from_str_radix(x, 16).ok().filter(|_| !x.starts_with('+'))) {
                    w.next();
                    if !(4..BLOCK as u16).contains(&at) {
                        return w.fault(format!("place {at} is not from 4 to 511; 0 to 3 are 'number' and 'check'"));
                    }
                    new.bytes.push((at as usize, byte));
                    at += 1;
                }
            }
            _ => return w.fault(format!("{} is no field of a block{}", quoted(field), hint(field, ["number", "check", "at"]))),
        }
    }
    blocks.insert(b as usize, new);
    Ok(())
}

/// The `block` lines of bytes whose records are listed apart; the last block may be cut short.
pub(crate) fn block_lines(bytes: &[u8]) -> String {
    let mut s = String::new();
    for (b, part) in bytes.chunks(BLOCK).enumerate() {
        let mut block = [0; BLOCK];
        block[..part.len()].copy_from_slice(part);
        let u16_at = |at: usize| u16::from_le_bytes([block[at], block[at + 1]]);
        let sum: usize = block[..2].iter().chain(&block[4..]).map(|x| *x as usize).sum();
        let mut head = String::new();
        if u16_at(0) != b as u16 {
            write!(head, " number {}", u16_at(0)).unwrap();
        }
        if u16_at(2) != sum as u16 {
            write!(head, " check {}", u16_at(2)).unwrap();
        }
        if !head.is_empty() {
            writeln!(s, "block {b}{head}").unwrap();
        }
        let apart = |at: usize| if b == 0 { matches!(at, 12..=15 | 24..) } else { at < 32 };
        let mut at = 4;
        while at < BLOCK {
            if block[at] == 0 || !apart(at) {
                at += 1;
                continue;
            }
            let end = (at..(at + 16).min(BLOCK)).take_while(|x| block[*x] != 0 && apart(*x)).count() + at;
            writeln!(s, "block {b} at {at} {}", block[at..end].iter().map(|x| format!("{x:02x}")).collect::<Vec<_>>().join(" ")).unwrap();
            at = end;
        }
    }
    s
}
