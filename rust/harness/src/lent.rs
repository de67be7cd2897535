//! Lent output between guards: what a call writes, and whether anything else moved.
use crate::plain::{Class, SHEET_NUMBERS, SHEET_SETS, lay_out};
use sorzibelu::Refusal;
use std::fmt::Debug;

const GUARD: usize = 40;

/// What is lent: bytes, or numbers of 16 or 32 bits.
pub trait Cell: Copy + PartialEq + Debug {
    fn filling(x: usize) -> Self;
}

impl Cell for u8 {
    fn filling(x: usize) -> u8 {
        (x * 7) as u8
    }
}

impl Cell for u16 {
    fn filling(x: usize) -> u16 {
        (x * 263) as u16
    }
}

impl Cell for u32 {
    fn filling(x: usize) -> u32 {
        (x * 16_843_019) as u32
    }
}

/// `room` places between guards, filled differently at each `turn`.
fn filled<T: Cell>(room: usize, turn: usize) -> Vec<T> {
    (0..room + 2 * GUARD).map(|i| T::filling(i + turn)).collect()
}

/// An answer or a refusal's number and place, and what was written.
pub type Left<T> = (Result<u32, (u16, u16)>, Vec<T>);

/// Lends `room` places, filled differently at each `turn`. `wrote` tells from an accepted answer how many of them it names; all other places,
/// the guards on both sides among them, must hold what they held, and after a refusal every place.
pub fn lend<T: Cell>(
    room: usize,
    turn: usize,
    wrote: impl Fn(u32) -> usize,
    call: impl FnOnce(&mut [T]) -> Result<u32, Refusal>,
) -> Result<Left<T>, String> {
    let filled = filled::<T>(room, turn);
    let mut all = filled.clone();
    let answer = call(&mut all[GUARD..GUARD + room]).map_err(|r| (r.number(), r.place()));
    let named = answer.map_or(0, &wrote);
    if named > room {
        return Err(format!("answer {answer:?} names {named} places of {room} lent"));
    }
    let moved = (0..all.len()).find(|i| all[*i] != filled[*i] && !(GUARD..GUARD + named).contains(i));
    match moved {
        Some(i) => Err(format!("answer {answer:?} with {room} lent: place {} was changed", i as i64 - GUARD as i64)),
        None => Ok((answer, all[GUARD..GUARD + named].to_vec())),
    }
}

/// Lends so many bytes and numbers for a class set. The answer must be `wanted`, and all that was lent, the guards on both sides among it, hold what `wanted` writes and
/// else what it held.
pub fn lend_class(
    bytes: usize,
    numbers: usize,
    turn: usize,
    wanted: &Class,
    call: impl FnOnce(&mut [u8], &mut [u32]) -> Result<u32, Refusal>,
) -> Result<(), String> {
    let (mut sets, mut answers) = (filled(bytes, turn), filled(numbers, turn));
    let (mut want_sets, mut want_answers) = (sets.clone(), answers.clone());
    lay_out(wanted, &mut want_sets[GUARD..GUARD + bytes], &mut want_answers[GUARD..GUARD + numbers]);
    let answer = call(&mut sets[GUARD..GUARD + bytes], &mut answers[GUARD..GUARD + numbers]).map_err(|r| (r.number(), r.place()));
    let want = wanted.as_ref().map(|sheets| sheets.len() as u32).map_err(|r| *r);
    if answer != want {
        return Err(format!("answer {answer:?}, and it should be {want:?}, with {bytes} bytes and {numbers} numbers lent"));
    }
    first_other("number", &answers, &want_answers, SHEET_NUMBERS)?;
    first_other("byte", &sets, &want_sets, SHEET_SETS)
}

/// The first place that holds something else, in the sheet that it is lent for.
fn first_other<T: Cell>(what: &str, all: &[T], wanted: &[T], each: usize) -> Result<(), String> {
    let Some(i) = (0..all.len()).find(|i| all[*i] != wanted[*i]) else { return Ok(()) };
    let at = i as isize - GUARD as isize;
    let (sheet, place) = (at.div_euclid(each as isize), at.rem_euclid(each as isize));
    Err(format!("{what} {place} of sheet {sheet} is {:?} and should be {:?}", all[i], wanted[i]))
}
