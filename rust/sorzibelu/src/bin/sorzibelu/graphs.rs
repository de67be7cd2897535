//! `in-use FILE [NODE]`, `conditional FILE [NODE]` and `dying THIS NEXT`, or `dying PAIR`.
use crate::{
    input,
    output::{self, print, End, Status},
    words::Words,
    Command,
};
use sorzibelu::{
    dying_nodes,
    graph::{self, Owned, Written},
    Refusal,
};

pub const IN_USE: Command = Command {
    name: "in-use",
    takes: "GRAPH [NODE]",
    about: "whether each node of a graph, or one node, is in use: it or a descendant is live",
    help: "$ sorzibelu in-use sheets/m7.txt 0\n0: yes, 0 -> 1 -> 2, and 2 is live\n\n\
           A graph is a text such as\n\nnodes 3\nlive 2\ntriple 0 1 0\ntriple 1 2 0\n\nOf a pair the first graph is meant.\n",
    run: |words| asked(words, graph::in_use_line),
};

pub const CONDITIONAL: Command = Command {
    name: "conditional",
    takes: "GRAPH [NODE]",
    about: "whether each node of a graph, or one node, is conditional: more than one triple leads to it or to a descendant",
    help: "$ sorzibelu conditional sheets/m7.txt\n0: no\n1: no\n2: no\n\nA graph is a text; `sorzibelu in-use --help` has one. Of a pair the first graph is meant.\n",
    run: |words| asked(words, graph::conditional_line),
};

pub const DYING: Command = Command {
    name: "dying",
    takes: "THIS NEXT, or PAIR",
    about: "the nodes that die from this graph to the next, in their order",
    help: "$ sorzibelu dying sheets/m7.txt\n2 1 0\n\n\
           Two graphs, or one text with both: the line this, a graph, the line next, a graph. `sorzibelu page` gives the reasons.\n",
    run: dying,
};

/// Prints a refusal: the paper's line, and what it means, with the line of the text.
pub fn refuse(written: &Written, asked: Option<u32>, refusal: Refusal) -> Result<Status, End> {
    let graphs: Vec<_> = [Some(written.this()), written.next()].into_iter().flatten().map(Owned::graph).collect();
    let line = if refusal.number() == 14 { String::new() } else { format!("line {}, ", written.fault(refusal).line) };
    output::refuse(refusal, &(line + &graph::why(&graphs, asked, refusal)))
}

fn asked(words: Words, line: fn(&Owned, u32) -> Result<String, Refusal>) -> Result<Status, End> {
    let words = words.files(1, 2)?;
    let node = words.get(1).map(|w| w.to_str().and_then(|w| w.parse().ok()).ok_or(w)).transpose();
    let node: Option<u32> = node.map_err(|w| End::Usage(format!("'{}' is no node: a number such as 0", w.display())))?;
    let written = input::graphs(&words[0])?;
    let graph = written.this();
    // a graph is checked even where it has no node
    let all = dying_nodes(graph.graph(), graph.graph()).and_then(|_| match node {
        Some(node) => line(graph, node),
        None => (0..graph.nodes).map(|node| line(graph, node)).collect(),
    });
    match all {
        Ok(lines) => print(&lines),
        Err(r) => refuse(&written, node, r),
    }
}

fn dying(words: Words) -> Result<Status, End> {
    let files = words.files(1, 2)?;
    let first = input::graphs(&files[0])?;
    let written = match (files.get(1), first.next()) {
        (None, Some(_)) => first,
        (None, None) => return Err(End::Usage(format!("{}: one graph, where a pair should stand, or a second file", input::called(&files[0])))),
        (Some(next), _) => first.with_next(input::graphs(next)?),
    };
    let Some(next) = written.next() else { return Ok(Status::Answered) };
    match dying_nodes(written.this().graph(), next.graph()) {
        Ok(nodes) if nodes.is_empty() => print("none\n"),
        Ok(nodes) => print(&(nodes.iter().map(u8::to_string).collect::<Vec<_>>().join(" ") + "\n")),
        Err(r) => refuse(&written, None, r),
    }
}
