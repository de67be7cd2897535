//! `page FILE` and `live FILE`: the texts of the proved functions, as they are.
use crate::{
    graphs, input,
    output::{print, End, Status},
    words::Words,
    Command,
};
use sorzibelu::{Refusal, graph, livelist_text, page_text};

pub const PAGE: Command = Command {
    name: "page",
    takes: "FILE",
    about: "the page of a sheet: its code, flow table, live sets and rewritten code; of a graph or a pair too",
    help: "$ sorzibelu page sheets/m1.txt\ncode\nlocals 1 user 1 parameters 1 references\n0: ret t0\n\nflow\n0 to 0: key 2, leads to 1\nblocks 1\n\n\
           live\n0: before 0000000000000001 t0, after 0000000000000000\ntaken 3\n\nrewritten\nlocals 1 user 1 parameters 1 references\n0: ret t0\n\n\
           For a graph: which nodes are in use and which conditional; for a pair of graphs: which die. Each with its reason.\n",
    run: page,
};

pub const LIVE: Command = Command {
    name: "live",
    takes: "FILE",
    about: "the live sets of a sheet, in the examination's format",
    help: "$ sorzibelu live sheets/m2.txt\n0 0000000000000003 0000000000000003\n1 0000000000000003 0000000000000003\n2 0000000000000002 0000000000000002\n\
           3 0000000000000002 0000000000000000\ntaken 7\n\nOffset, set before, set after, bit i for local i; then how many blocks the work list gave out.\n",
    run: live,
};

/// The text of a sheet by a proved function.
fn proved(given: &input::Given, text: fn(&[u8]) -> Result<String, Refusal>) -> Result<Status, End> {
    match text(&given.bytes) {
        Ok(text) => print(&text),
        Err(r) => given.refuse(r),
    }
}

fn page(words: Words) -> Result<Status, End> {
    match input::either(&words.file()?)? {
        input::Either::Graphs(written) => graph_page(&written),
        input::Either::Sheet(given) => proved(&given, page_text),
    }
}

fn graph_page(written: &graph::Written) -> Result<Status, End> {
    let (this, next) = (written.this(), written.next());
    match next.map_or_else(|| graph::page(this), |next| graph::pair_page(this, next)) {
        Ok(text) => print(&text),
        Err(r) => graphs::refuse(written, None, r),
    }
}

fn live(words: Words) -> Result<Status, End> {
    let given = input::sheet(&words.file()?)?;
    proved(&given, livelist_text)
}
