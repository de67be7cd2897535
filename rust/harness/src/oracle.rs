//! Questions to the original Rust behind oracle/, over its standard input and output.
use sorzibelu::{Graph, Lookup};
use std::{
    collections::BTreeMap,
    io::{BufReader, BufWriter, Read, Result, Write},
    process::{Child, Command, Stdio},
    thread,
};

pub const FLOW: u8 = 1;
pub const LIVE: u8 = 2;
pub const REWRITE: u8 = 3;
pub const IN_USE: u8 = 4;
pub const CONDITIONAL: u8 = 5;
pub const DYING: u8 = 6;
/// Renumbering, after the name of its function.
pub const ELIMINATE: u8 = 7;
/// Where each Label stands, and whether it is named.
pub const LABELS: u8 = 11;

pub fn start(path: &str) -> Result<Child> {
    Command::new(path).stdin(Stdio::piped()).stdout(Stdio::piped()).spawn()
}

/// A status, then the data.
pub type Answer = (u8, Vec<u8>);

const ENDED: &str = "the original Rust's process ended";

fn write(input: &mut impl Write, (op, payload): (u8, &[u8])) {
    input.write_all(&[op]).expect(ENDED);
    input.write_all(&(payload.len() as u32).to_le_bytes()).expect(ENDED);
    input.write_all(payload).expect(ENDED);
}

fn read(output: &mut impl Read) -> Answer {
    let (mut len, mut status) = ([0; 4], [0]);
    output.read_exact(&mut len).expect(ENDED);
    output.read_exact(&mut status).expect(ENDED);
    let mut data = vec![0; u32::from_le_bytes(len) as usize - 1];
    output.read_exact(&mut data).expect(ENDED);
    (status[0], data)
}

/// One request and its answer.
pub fn ask(oracle: &mut Child, op: u8, payload: &[u8]) -> Answer {
    let input = oracle.stdin.as_mut().expect(ENDED);
    write(input, (op, payload));
    input.flush().expect(ENDED);
    read(oracle.stdout.as_mut().expect(ENDED))
}

/// Many requests at once: a thread writes them while the answers are read.
pub fn pump(oracle: &mut Child, requests: &[(u8, &[u8])]) -> Vec<Answer> {
    let mut input = BufWriter::with_capacity(1 << 18, oracle.stdin.as_mut().expect(ENDED));
    let mut output = BufReader::with_capacity(1 << 18, oracle.stdout.as_mut().expect(ENDED));
    thread::scope(|scope| {
        scope.spawn(move || {
            requests.iter().for_each(|r| write(&mut input, *r));
            input.flush().expect(ENDED);
        });
        requests.iter().map(|_| read(&mut output)).collect()
    })
}

/// A graph as the oracle reads it.
pub fn payload(g: Graph) -> Vec<u8> {
    let mut b = g.nodes.to_le_bytes().to_vec();
    b.extend(g.live.to_le_bytes());
    b.extend((g.triples.len() as u32 / 3).to_le_bytes());
    b.extend(g.triples.iter().flat_map(|x| x.to_le_bytes()));
    b
}

/// The labels of an answer to LABELS; every other number is undefined.
pub fn labels(data: &[u8]) -> BTreeMap<u32, Lookup> {
    let found = |r: &[u8]| {
        let [label, at] = [0, 2].map(|i| u16::from_le_bytes([r[i], r[i + 1]]));
        (label.into(), if r[4] == 1 { Lookup::Named(at) } else { Lookup::Unnamed(at) })
    };
    data.chunks_exact(5).map(found).collect()
}
