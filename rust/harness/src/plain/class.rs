//! A class set: sheets laid end to end, marked together (E3 of document 02).
use super::{check, live, set_bytes};
use crate::Bytes;
use sorzibelu::sheet::{BLOCK, Sheet};

/// Bytes of output for each sheet.
pub const SHEET_SETS: usize = 16_384;
/// Numbers for each sheet: its number, its place and its count.
pub const SHEET_NUMBERS: usize = 3;
/// The most sheets.
const MOST: usize = 16;

/// What a sheet gets: its 16n bytes and its count, or its number and place.
pub type Alone = Result<(Vec<u8>, u32), (u16, u16)>;

/// What a class set gets: each of its sheets, or a number and a place for the whole.
pub type Class = Result<Vec<Alone>, (u16, u16)>;

/// What live gives a sheet alone, with enough lent.
pub fn alone(s: &[u8]) -> Alone {
    check(s)?;
    let (sets, taken) = live(&Sheet::of_bytes(s).code);
    Ok((set_bytes(&sets), taken))
}

/// The sheets of whole blocks, the first of them numbered 0: a sheet starts at each block numbered 0.
pub fn sheets(s: &[u8]) -> Vec<Vec<u8>> {
    let mut all: Vec<Vec<u8>> = vec![];
    for block in s.chunks(BLOCK) {
        if block[0] == 0 && block[1] == 0 {
            all.push(vec![]);
        }
        all.last_mut().expect("the first block is numbered 0").extend(block);
    }
    all
}

/// 1, 16 and 17 of the whole; then its sheets.
pub fn cut(s: &[u8]) -> Result<Vec<Vec<u8>>, (u16, u16)> {
    if s.is_empty() || !s.len().is_multiple_of(BLOCK) {
        return Err((1, 0));
    }
    if s[0] != 0 || s[1] != 0 {
        return Err((16, 0));
    }
    let sheets = sheets(s);
    if sheets.len() > MOST { Err((17, 0)) } else { Ok(sheets) }
}

/// The whole call with so many bytes and numbers lent, `alone` telling what a sheet gets.
pub fn live_class(s: &[u8], bytes: usize, numbers: usize, alone: impl FnMut(&[u8]) -> Alone) -> Class {
    let sheets = cut(s)?;
    if bytes < SHEET_SETS * sheets.len() || numbers < SHEET_NUMBERS * sheets.len() {
        return Err((9, 0));
    }
    Ok(sheets.iter().map(|s| &s[..]).map(alone).collect())
}

/// What is lent after the call, from what was lent: sheet k writes into the bytes from 16,384 times k and into three numbers; all else stays.
pub fn lay_out(class: &Class, sets: &mut [u8], answers: &mut [u32]) {
    for (k, sheet) in class.iter().flatten().enumerate() {
        let numbers = match sheet {
            Ok((bytes, taken)) => {
                sets[SHEET_SETS * k..][..bytes.len()].copy_from_slice(bytes);
                [0, 0, *taken]
            }
            Err((number, place)) => [(*number).into(), (*place).into(), 0],
        };
        answers[SHEET_NUMBERS * k..][..SHEET_NUMBERS].copy_from_slice(&numbers);
    }
}
