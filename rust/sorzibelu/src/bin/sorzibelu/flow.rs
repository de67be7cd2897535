//! `flow FILE`.
use crate::{
    input,
    output::{print, End, Status},
    words::Words,
    Command,
};
use sorzibelu::{Block, Refusal, blocks, never_named};

pub const COMMAND: Command = Command {
    name: "flow",
    takes: "FILE",
    about: "the flow table of a sheet: a line for each block, their count, and the labels that nothing names",
    help: "$ sorzibelu flow sheets/m2.txt\n0 to 1: key 2, leads to 2 3\n2 to 3: key 3, leads to 1\nblocks 2\n\
           $ sorzibelu flow sheets/unnamed.txt\n0 to 2: key 2, leads to 2 3\n3 to 4: key 3, leads to 1\nblocks 2\nnever named L5\n\n\
           Each block has the offsets of its first and last instruction, its key, and the keys that it leads to; 1 is the exit. Labels that no Branch, Jump or Call with\n\
           an abort action names start no block by themselves, and stand in a last line.\n",
    run,
};

fn line(b: &Block) -> String {
    let next: String = b.leads_to().map(|k| format!(" {k}")).collect();
    format!("{} to {}: key {}, leads to{next}\n", b.lower, b.upper, b.key)
}

/// The table, and the labels that nothing names where there are any: the part flow of a page.
fn table(bytes: &[u8]) -> Result<String, Refusal> {
    let (rows, labels) = (blocks(bytes)?, never_named(bytes)?);
    let lines: String = rows.iter().map(line).collect();
    let names: String = labels.iter().map(|l| format!(" L{l}")).collect();
    let last = if names.is_empty() { names } else { format!("never named{names}\n") };
    Ok(format!("{lines}blocks {}\n{last}", rows.len()))
}

fn run(words: Words) -> Result<Status, End> {
    let given = input::sheet(&words.file()?)?;
    match table(&given.bytes) {
        Ok(text) => print(&text),
        Err(r) => given.refuse(r),
    }
}
