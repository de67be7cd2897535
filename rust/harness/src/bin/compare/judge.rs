//! What is counted, how two answers are held against each other, and what is shown where they differ.
use harness::{Bytes, oracle::*, plain};
use sorzibelu::{Refusal, graph::Owned, sheet::*, text};
use std::{collections::BTreeMap, fmt::Debug, process::Child};

pub type Answered<T> = Result<T, (u16, u16)>;

/// What was seen of one part.
#[derive(Default)]
pub struct Part {
    pub sheets: usize,
    pub accepted: usize,
    pub questions: usize,
    pub differences: usize,
    /// How often each refusal was met.
    pub met: BTreeMap<u16, usize>,
}

pub struct Run {
    pub oracle: Child,
    pub turn: usize,
    /// How many calls had exact, short, empty and long output.
    pub rooms: [usize; 4],
    /// How many labels were named, never named and undefined.
    pub ways: [usize; 3],
    /// Graph questions that the original would not finish.
    pub unfinished: usize,
    pub smallest_sheet: Option<Vec<u8>>,
    pub smallest_class: Option<Vec<u8>>,
    pub smallest_graphs: Option<(Owned, Owned)>,
}

pub fn pair(r: Refusal) -> (u16, u16) {
    (r.number(), r.place())
}

pub fn same<T: PartialEq + Debug>(what: &str, ours: T, theirs: T) -> Result<(), String> {
    same_as(what, ours, theirs, |x| format!("{x:?}\n"))
}

pub fn same_as<T: PartialEq>(what: &str, ours: T, theirs: T, show: impl Fn(&T) -> String) -> Result<(), String> {
    if ours == theirs {
        return Ok(());
    }
    Err(format!("{what}\nhere:\n{}there:\n{}", show(&ours), show(&theirs)))
}

/// A flow table, a row a block.
pub fn show_table(a: &Answered<Vec<u8>>) -> String {
    shown(a, |b| b.chunks(12).map(|r| format!("{}\n", r.chunks(2).map(|x| (x[0] as u16 + 256 * x[1] as u16).to_string()).collect::<Vec<_>>().join(" "))).collect())
}

/// Live sets in livelist's format, then what is left over: the count.
pub fn show_sets(a: &Answered<Vec<u8>>) -> String {
    let hex = |b: &[u8]| b.iter().rev().map(|x| format!("{x:02x}")).collect::<String>();
    shown(a, |b| b.chunks(16).enumerate().map(|(k, s)| if s.len() == 16 { format!("{k} {} {}\n", hex(&s[..8]), hex(&s[8..])) } else { format!("taken {}\n", hex(s)) }).collect())
}

/// A new sheet as a listing.
pub fn show_sheet(a: &Answered<Vec<u8>>) -> String {
    shown(a, |b| if readable(b) { text::list(&Sheet::of_bytes(b)) } else { text::list_raw(b) })
}

pub fn shown(a: &Answered<Vec<u8>>, show: impl Fn(&[u8]) -> String) -> String {
    match a {
        Ok(b) => show(b),
        Err((number, place)) => format!("refused {number} {place}\n"),
    }
}

/// The original's answer: data, or a refusal that its driver works out (10, 11, 15) with its place.
pub fn theirs(a: &Answer) -> Answered<Vec<u8>> {
    match a.0 {
        0 => Ok(a.1.clone()),
        status => Err((status as u16, u16::from_le_bytes([a.1[0], a.1[1]]))),
    }
}

pub fn bytes(table: &[u16]) -> Vec<u8> {
    table.iter().flat_map(|x| x.to_le_bytes()).collect()
}

impl Run {
    /// Every room of a call that needs `exact`: what must come out of each.
    pub fn rooms<T: Clone>(&mut self, exact: usize, answer: &Answered<T>) -> Vec<(usize, Answered<T>)> {
        self.turn += 1;
        let mut rooms = vec![(exact, answer.clone()), (exact + 1 + self.turn % 50, answer.clone())];
        self.rooms[0] += 1;
        self.rooms[3] += 1;
        if exact > 0 {
            rooms.push((exact - 1, Err((9, 0))));
            rooms.push((0, Err((9, 0))));
            self.rooms[1] += 1;
            self.rooms[2] += 1;
        }
        rooms
    }
}

/// Its records can be listed: 1 to 4 let it through.
pub fn readable(s: &[u8]) -> bool {
    plain::check(s).map_or_else(|(number, _)| number > 4, |()| true)
}
