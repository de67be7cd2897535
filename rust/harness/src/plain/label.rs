//! The lookup of a label (document 02, E2).
use super::check;
use crate::Bytes;
use sorzibelu::{Lookup, sheet::*};

/// The numbers of the Labels, by offset.
pub fn labels(code: &[Instruction]) -> Vec<u32> {
    code.iter().filter(|r| r.kind == LABEL).map(|r| r.one.into()).collect()
}

/// The instruction names the label.
fn names(r: &Instruction, label: u32) -> bool {
    let (one, two) = (u32::from(r.one) == label, u32::from(r.two) == label);
    match r.kind {
        BRANCH => one || two,
        JUMP => one,
        CALL => r.abort.is_some() && one,
        _ => false,
    }
}

/// What a label is in accepted code.
pub fn lookup(code: &[Instruction], label: u32) -> Lookup {
    let named = code.iter().any(|r| names(r, label));
    match code.iter().position(|r| r.kind == LABEL && u32::from(r.one) == label) {
        Some(at) if named => Lookup::Named(at as u16),
        Some(at) => Lookup::Unnamed(at as u16),
        None => Lookup::Undefined,
    }
}

/// What a label is in a sheet.
pub fn label(s: &[u8], label: u32) -> Result<Lookup, (u16, u16)> {
    check(s)?;
    Ok(lookup(&Sheet::of_bytes(s).code, label))
}

/// The labels that nothing names, by the offsets of their Labels.
pub fn never_named(code: &[Instruction]) -> Vec<u16> {
    labels(code).into_iter().filter(|l| matches!(lookup(code, *l), Lookup::Unnamed(_))).map(|l| l as u16).collect()
}

/// As the C entry point gives it: 65,536 * way + offset.
pub fn packed(found: Lookup) -> u32 {
    match found {
        Lookup::Named(at) => 65_536 + u32::from(at),
        Lookup::Unnamed(at) => 2 * 65_536 + u32::from(at),
        Lookup::Undefined => 3 * 65_536,
    }
}
