//! The lookup of a label.
use super::{MOST, Refused, check, names, record, u16_at};
use sorzibelu::sheet::LABEL;

const NAMED: u32 = 1 << 16;
const UNNAMED: u32 = 2 << 16;
const UNDEFINED: u32 = 3 << 16;

/// What a label is: its way, and the offset of its Label.
pub fn label(s: &[u8], label: u32) -> Result<u32, Refused> {
    let mut targets = [[0; 2]; MOST];
    let n = check::<false>(s, &mut targets)?;
    let has = |k: &usize| {
        let r = record(s, *k);
        r[0] == LABEL && u32::from(u16_at(r, 4)) == label
    };
    let Some(at) = (0..n).find(has) else { return Ok(UNDEFINED) };
    // the checks have found where each name leads
    let named = (0..n).any(|k| targets[k][..names(record(s, k))].contains(&(at as u16)));
    Ok(if named { NAMED } else { UNNAMED } + at as u32)
}
