//! The page of a sheet, written from document 01 and the text form: what the answer book is compared with.
use crate::{plain, Bytes};
use sorzibelu::{sheet::*, text};
use std::fmt::Write;

/// The text of a sheet, with the offset before each instruction.
fn listing(sheet: &Sheet) -> String {
    let all = text::list(sheet);
    let (head, code) = all.split_once('\n').unwrap();
    code.lines().enumerate().fold(format!("{head}\n"), |s, (k, line)| s + &format!("{k}: {line}\n"))
}

fn set(m: u64) -> String {
    (0..64).filter(|x| m >> x & 1 == 1).fold(format!("{m:016x}"), |s, x| s + &format!(" t{x}"))
}

/// The page of any bytes.
pub fn page(bytes: &[u8]) -> String {
    let refused = |(number, place): (u16, u16)| format!("refused {number} {place}\n");
    if let Err(r) = plain::check(bytes) {
        return refused(r);
    }
    let sheet = Sheet::of_bytes(bytes);
    let mut s = format!("code\n{}\nflow\n", listing(&sheet));
    let table = plain::flow(&sheet.code);
    for row in table.chunks(6) {
        write!(s, "{} to {}: key {}, leads to", row[0], row[1], row[2]).unwrap();
        row[3..].iter().filter(|k| **k != 0).for_each(|k| write!(s, " {k}").unwrap());
        s.push('\n');
    }
    writeln!(s, "blocks {}", table.len() / 6).unwrap();
    let labels = plain::never_named(&sheet.code);
    if !labels.is_empty() {
        writeln!(s, "never named{}", labels.iter().map(|l| format!(" L{l}")).collect::<String>()).unwrap();
    }
    s.push_str("\nlive\n");
    let (sets, taken) = plain::live(&sheet.code);
    for (k, (before, after)) in sets.iter().enumerate() {
        writeln!(s, "{k}: before {}, after {}", set(*before), set(*after)).unwrap();
    }
    let rewritten = match plain::rewrite(bytes) {
        Ok(new) => listing(&Sheet::of_bytes(&new)),
        Err(r) => refused(r),
    };
    s + &format!("taken {taken}\n\nrewritten\n{rewritten}")
}
