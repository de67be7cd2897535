//! `check FILE`.
use crate::{
    graphs, input,
    output::{print, End, Status},
    words::Words,
    Command,
};
use sorzibelu::graph::Owned;

pub const COMMAND: Command = Command {
    name: "check",
    takes: "FILE",
    about: "whether a sheet, a graph or a pair of graphs is accepted, and if not why",
    help: "$ sorzibelu check sheets/m2.txt\naccepted\n$ sorzibelu check sheets/kind12.sheet\nrefused 4 0\noffset 0: its kind is 12, and the last kind is 11, Prop\n\n\
           A refusal is a number and a place of the paper's table; the next line says which field, local or label is meant.\n",
    run,
};

fn run(words: Words) -> Result<Status, End> {
    let refused = match input::either(&words.file()?)? {
        input::Either::Sheet(given) => sorzibelu::check(&given.bytes).map_err(|r| given.refuse(r)),
        input::Either::Graphs(written) => {
            let this = written.this().graph();
            let next = written.next().map_or(this, Owned::graph);
            sorzibelu::dying_nodes(this, next).map(drop).map_err(|r| graphs::refuse(&written, None, r))
        }
    };
    match refused {
        Ok(()) => print("accepted\n"),
        Err(told) => told,
    }
}
