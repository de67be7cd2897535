//! The file of stored answers: a case, how it is packed and unpacked, and its replay with the proved calls.
use harness::{oracle::*, plain};
use sorzibelu::{Graph, Refusal, check, conditional, dying, flow, graph::Owned, in_use, label, live, live_class, renumber, rewrite};
use std::collections::HashMap;

// behind the first six, which have the original's numbers
pub const CHECK: u8 = 7;
pub const RENUMBER: u8 = 8;
pub const LABEL: u8 = 9;
pub const LIVE_CLASS: u8 = 10;
/// The calls, from 1.
pub const NAMES: [&str; 10] = ["flow", "live", "rewrite", "in use", "conditional", "dying", "check", "renumber", "label", "live class"];
pub const WRONG: u8 = 128;
pub const FILLING: u8 = 0xA5;
pub const HEAD: usize = 16;
pub const ROW: usize = 40;
/// More than any call needs, and the most that a case lends.
pub const MOST: usize = 36_864;
/// The same of a class set, in bytes and in numbers.
pub const MOST_SETS: usize = 16 * plain::SHEET_SETS + 512;
pub const MOST_NUMBERS: usize = 64;

/// A question and its stored answer.
#[derive(Clone, PartialEq, Eq)]
pub struct Case {
    pub op: u8,
    pub lent: usize,
    pub result: Result<u32, (u16, u16)>,
    pub input: Vec<u8>,
    pub second: Vec<u8>,
    pub written: Vec<u8>,
}

/// A class set's answer as a case holds it, what is asked beside the class set first: for each sheet number, place, count and how many bytes it writes; then these bytes.
pub fn given_class(numbers: usize, class: &plain::Class) -> (Vec<u8>, Vec<u8>) {
    let (mut second, mut written) = (vec![numbers as u32], vec![]);
    for sheet in class.iter().flatten() {
        match sheet {
            Ok((sets, taken)) => {
                second.extend([0, 0, *taken, sets.len() as u32]);
                written.extend(sets);
            }
            Err((number, place)) => second.extend([(*number).into(), (*place).into(), 0, 0]),
        }
    }
    (second.iter().flat_map(|x| x.to_le_bytes()).collect(), written)
}

/// The numbers of a string.
pub fn numbers_of(b: &[u8]) -> Vec<u32> {
    b.chunks(4).map(|x| u32::from_le_bytes(x.try_into().unwrap())).collect()
}

fn packed_result(r: Result<u32, (u16, u16)>) -> u64 {
    match r {
        Ok(value) => value as u64,
        Err((number, place)) => (number as u64) << 32 | place as u64,
    }
}

/// A graph as a case holds it.
pub fn given(g: Graph) -> Vec<u8> {
    let mut b = g.nodes.to_le_bytes().to_vec();
    b.extend(g.live.to_le_bytes());
    b.extend(g.triples.iter().flat_map(|x| x.to_le_bytes()));
    b
}

pub fn of_given(b: &[u8]) -> Owned {
    Owned {
        nodes: u32::from_le_bytes(b[..4].try_into().unwrap()),
        live: u64::from_le_bytes(b[4..12].try_into().unwrap()),
        triples: numbers_of(&b[12..]),
    }
}

pub fn pack(b: &[u8]) -> Vec<u8> {
    let mut out = vec![];
    let mut i = 0;
    while i < b.len() {
        if b[i] != 0 {
            out.push(b[i]);
            i += 1;
            continue;
        }
        let run = b[i..].iter().take(255).take_while(|x| **x == 0).count();
        out.extend([0, run as u8]);
        i += run;
    }
    out
}

pub fn unpack(b: &[u8]) -> Vec<u8> {
    let mut out = vec![];
    let mut b = b.iter();
    while let Some(x) = b.next() {
        match x {
            0 => out.resize(out.len() + *b.next().expect("a count") as usize, 0),
            x => out.push(*x),
        }
    }
    out
}

pub fn write_file(cases: &[Case]) -> Vec<u8> {
    let mut strings: Vec<u8> = vec![];
    let mut known: HashMap<Vec<u8>, [u32; 2]> = HashMap::from([(vec![], [0, 0])]);
    let start = HEAD + ROW * cases.len();
    let mut rows = vec![];
    for c in cases {
        let mut place = |b: &[u8]| {
            let packed = pack(b);
            *known.entry(packed.clone()).or_insert_with(|| {
                let from = start + strings.len();
                strings.extend(&packed);
                [from as u32, packed.len() as u32]
            })
        };
        let places = [place(&c.input), place(&c.second), place(&c.written)].concat();
        rows.extend((c.op as u32).to_le_bytes());
        rows.extend((c.lent as u32).to_le_bytes());
        rows.extend(packed_result(c.result).to_le_bytes());
        rows.extend(places.iter().flat_map(|x| x.to_le_bytes()));
    }
    let mut file = b"replay 1".to_vec();
    file.extend((cases.len() as u32).to_le_bytes());
    file.extend(((start + strings.len()) as u32).to_le_bytes());
    file.extend(rows);
    file.extend(strings);
    file
}

fn packed(r: Result<u32, Refusal>) -> u64 {
    packed_result(r.map_err(|r| (r.number(), r.place())))
}

/// Whether the proved call gives the stored answer of a class set, each sheet's bytes and numbers where they belong.
fn class_agrees(lent: usize, result: u64, input: &[u8], second: &[u8], written: &[u8]) -> bool {
    let (mut sets, mut answers) = (vec![FILLING; MOST_SETS], vec![u32::from_le_bytes([FILLING; 4]); MOST_NUMBERS]);
    let (mut want_sets, mut want_answers) = (sets.clone(), answers.clone());
    let (second, mut left) = (numbers_of(second), written);
    for (k, row) in second[1..].chunks(4).enumerate() {
        let mine = left.split_off(..row[3] as usize).expect("the bytes of each sheet");
        want_sets[plain::SHEET_SETS * k..][..mine.len()].copy_from_slice(mine);
        want_answers[plain::SHEET_NUMBERS * k..][..plain::SHEET_NUMBERS].copy_from_slice(&row[..3]);
    }
    assert!(left.is_empty(), "bytes of no sheet");
    let answer = packed(live_class(input, &mut sets[..lent], &mut answers[..second[0] as usize]));
    answer == result && sets == want_sets && answers == want_answers
}

/// Whether the proved call of a case gives the stored answer.
pub fn agrees(op: u8, lent: usize, result: u64, input: &[u8], second: &[u8], written: &[u8]) -> bool {
    if op == LIVE_CLASS {
        return class_agrees(lent, result, input, second, written);
    }
    let mut bytes = vec![FILLING; if op == FLOW { 0 } else { MOST }];
    let mut numbers = vec![u16::from_le_bytes([FILLING; 2]); if op == FLOW { 8_192 } else { 0 }];
    let answer = match op {
        FLOW => packed(flow(input, &mut numbers[..lent])),
        LIVE => packed(live(input, &mut bytes[..lent])),
        REWRITE => packed(rewrite(input, &mut bytes[..lent])),
        RENUMBER => packed(renumber(input, &mut bytes[..lent])),
        IN_USE | CONDITIONAL => {
            let node = u32::from_le_bytes(second.try_into().unwrap());
            let g = of_given(input);
            packed(if op == IN_USE { in_use(g.graph(), node) } else { conditional(g.graph(), node) }.map(u32::from))
        }
        LABEL => packed(label(input, u32::from_le_bytes(second.try_into().unwrap())).map(plain::packed)),
        DYING => packed(dying(of_given(input).graph(), of_given(second).graph(), &mut bytes[..lent])),
        _ => packed(check(input).map(|()| 0)),
    };
    bytes.extend(numbers.iter().flat_map(|x| x.to_le_bytes()));
    answer == result && written.len() <= bytes.len() && bytes[..written.len()] == *written && bytes[written.len()..].iter().all(|x| *x == FILLING)
}

/// Replays a file with the proved calls and prints what crates/replay prints; how many cases are not as they must be.
pub fn replay(file: &[u8]) -> usize {
    let u32_at = |at: usize| u32::from_le_bytes(file[at..at + 4].try_into().unwrap()) as usize;
    assert!(&file[..8] == b"replay 1" && u32_at(12) == file.len());
    let (mut counts, mut bad, mut wrong, mut found) = ([0; 11], 0, 0, 0);
    for k in 0..u32_at(8) {
        let row = HEAD + ROW * k;
        let string = |at: usize| unpack(&file[u32_at(row + at)..u32_at(row + at) + u32_at(row + at + 4)]);
        let op = file[row];
        let result = u64::from_le_bytes(file[row + 8..row + 16].try_into().unwrap());
        let same = agrees(op % WRONG, u32_at(row + 4), result, &string(16), &string(24), &string(32));
        if op < WRONG {
            counts[op as usize] += 1;
            if !same {
                println!("difference in case {k}");
                bad += 1;
            }
        } else {
            wrong += 1;
            found += usize::from(!same);
            if same {
                println!("not found in case {k}");
            }
        }
    }
    for (op, name) in (1..).zip(NAMES) {
        let of = match op {
            4..7 => "graphs",
            10 => "class sets",
            _ => "sheets",
        };
        println!("{name} {} {of}", counts[op]);
    }
    println!("{} cases, {bad} differences\n{wrong} made wrong, {found} found", counts.iter().sum::<usize>());
    bad + wrong - found
}
