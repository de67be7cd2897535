//! Refusals in words: which field, local or label is meant, read off the bytes or the graphs that were refused.
use crate::{class_sheets, sheet::*, Graph, Refusal, MAX_CLASS_SHEETS, MAX_NODES, MAX_TRIPLES};

/// Why a call refused these bytes, in words.
///
/// ```
/// use sorzibelu::{check, sheet::why, text};
/// let sheet = text::assemble("locals 1 user 1 parameters 0 references\nlabel L1\nbranch L1 L2 on t0\n")?;
/// let bytes = Vec::try_from(&sheet)?;
/// let refusal = check(&bytes).unwrap_err();
/// assert_eq!(why(&bytes, refusal), "offset 1: the Branch names label 2, which no Label has");
/// # Ok::<(), Box<dyn std::error::Error>>(())
/// ```
pub fn sheet(bytes: &[u8], refusal: Refusal) -> String {
    let said = match refusal {
        Refusal::Length => length(bytes.len()),
        Refusal::Block(b) => block(bytes, b as usize).map(|w| format!("block {b}: {w}")),
        Refusal::Heading => heading(bytes).map(|w| format!("the heading: {w}")),
        Refusal::Record(k) => record_at(bytes, k).and_then(|r| record(r, k as usize, count(bytes))).map(|w| format!("offset {k}: {w}")),
        Refusal::Local(k) => record_at(bytes, k).and_then(|r| local(r, locals(bytes))).map(|w| format!("offset {k}: {w}")),
        Refusal::RepeatedLabel(k) => record_at(bytes, k).and_then(|r| repeated(bytes, r, k)).map(|w| format!("offset {k}: {w}")),
        Refusal::MissingLabel(k) => record_at(bytes, k).and_then(|r| missing(bytes, r)).map(|w| format!("offset {k}: {w}")),
        Refusal::FallsPastEnd(k) => record_at(bytes, k).map(|r| format!("offset {k}: {} is the last instruction and can fall past the end", a_kind(r))),
        Refusal::NumbersRunOut => Some(numbers(bytes)),
        Refusal::HiddenLocal(k) => record_at(bytes, k).and_then(hidden).map(|w| format!("offset {k}: {w}")),
        Refusal::FlaggedStop(k) => record_at(bytes, k).and_then(flagged_stop).map(|w| format!("offset {k}: {w}")),
        _ => None,
    };
    said.unwrap_or_else(|| general(refusal))
}

/// Why a whole class set was refused, in words. For one of its sheets it is [`why`].
///
/// ```
/// use sorzibelu::{class_live_sets, sheet::class_why};
/// let refusal = class_live_sets(&[0; 17 * 512]).unwrap_err();
/// assert_eq!(class_why(&[0; 17 * 512], refusal), "17 sheets, and a class set has 16 at most");
/// ```
pub fn class(bytes: &[u8], refusal: Refusal) -> String {
    match refusal {
        Refusal::Length if bytes.is_empty() => "the class set is empty".into(),
        Refusal::Length => format!("the class set has {} bytes, which is no multiple of 512", bytes.len()),
        Refusal::FirstBlock => format!("the number of the first block is {} and should be 0", u16_at(bytes, 0).unwrap_or(0)),
        Refusal::TooManySheets => format!("{} sheets, and a class set has {MAX_CLASS_SHEETS} at most", class_sheets(bytes).len()),
        _ => general(refusal),
    }
}

/// Why a call refused a graph, or a pair of graphs, in words. `asked` is the node that was asked about, if one was.
///
/// ```
/// use sorzibelu::{graph::why, in_use, Graph};
/// let graph = Graph { nodes: 2, live: 0, triples: &[0, 1, 0, 0, 2, 0] };
/// let refusal = in_use(graph, 0).unwrap_err();
/// assert_eq!(why(&[graph], Some(0), refusal), "triple 1 (0,2,0): its child 2 is not below the node count, 2");
/// ```
pub fn graph(graphs: &[Graph], asked: Option<u32>, refusal: Refusal) -> String {
    let which = |i: usize| match (graphs.len(), i) {
        (0 | 1, _) => "",
        (_, 0) => "this graph: ",
        _ => "the next graph: ",
    };
    let said = match refusal {
        Refusal::Nodes(i) => graphs.get(i as usize).and_then(nodes).map(|w| which(i as usize).to_string() + &w),
        Refusal::Triple(p) => {
            let (i, t) = (p as usize / 1000, p as usize % 1000);
            graphs.get(i).and_then(|g| triple(g, t)).map(|w| which(i).to_string() + &w)
        }
        Refusal::AskedNode => graphs.first().zip(asked).map(|(g, node)| format!("node {node} was asked about, and the graph has {} nodes", g.nodes)),
        _ => None,
    };
    said.unwrap_or_else(|| general(refusal))
}

/// The words of the table's row.
fn general(refusal: Refusal) -> String {
    let all = refusal.to_string();
    all.split_once(": ").map_or(all.clone(), |(_, words)| words.to_string())
}

// ---- a sheet's bytes, whatever they are

fn u16_at(bytes: &[u8], at: usize) -> Option<u16> {
    Some(u16::from_le_bytes([*bytes.get(at)?, *bytes.get(at + 1)?]))
}

fn count(bytes: &[u8]) -> usize {
    u16_at(bytes, 4).unwrap_or(0) as usize
}

fn locals(bytes: &[u8]) -> u16 {
    u16_at(bytes, 6).unwrap_or(0)
}

fn record_at(bytes: &[u8], k: u16) -> Option<&[u8; RECORD]> {
    bytes.get(record_start(k as usize)..)?.first_chunk()
}

/// The instructions of kind Label, with their offsets.
fn labels(bytes: &[u8]) -> impl Iterator<Item = (u16, u16)> + '_ {
    let code = (0..count(bytes) as u16).filter_map(|k| record_at(bytes, k).map(|r| (k, r)));
    code.filter(|(_, r)| r[0] == LABEL).map(|(k, r)| (k, one(r)))
}

fn one(r: &[u8; RECORD]) -> u16 {
    u16::from_le_bytes([r[4], r[5]])
}

fn two(r: &[u8; RECORD]) -> u16 {
    u16::from_le_bytes([r[6], r[7]])
}

const KINDS: [&str; 12] = ["Assign", "Call", "Ret", "Load", "Branch", "Jump", "Label", "Abort", "Nop", "SaveMem", "SaveSpecVar", "Prop"];

/// A kind as the paper names it.
fn kind(r: &[u8; RECORD]) -> &'static str {
    KINDS.get(r[0] as usize).copied().unwrap_or("record")
}

/// The kind with its article.
fn a_kind(r: &[u8; RECORD]) -> String {
    format!("{} {}", if matches!(r[0], ASSIGN | ABORT) { "an" } else { "a" }, kind(r))
}

// ---- the checks

fn length(len: usize) -> Option<String> {
    Some(match len {
        0 => "the sheet is empty: it has 2 to 70 blocks of 512 bytes".into(),
        _ if !len.is_multiple_of(BLOCK) => format!("the sheet has {len} bytes, which is no multiple of 512"),
        _ if len < 1_024 => format!("the sheet has {len} bytes, and the shortest has 1,024"),
        _ => format!("the sheet has {len} bytes, and the longest has 35,840"),
    })
}

fn block(bytes: &[u8], b: usize) -> Option<String> {
    let p = bytes.get(BLOCK * b..BLOCK * (b + 1))?;
    let (number, check) = (u16_at(p, 0)?, u16_at(p, 2)?);
    if number as usize != b {
        return Some(format!("its number is {number} and should be {b}"));
    }
    if check != sum(p) {
        return Some(format!("its check is {check} and should be {}, the sum of its other bytes", sum(p)));
    }
    (4..32).find(|at| p[*at] != 0).map(|at| format!("its byte {at} is {} and should be 0", p[at]))
}

fn heading(s: &[u8]) -> Option<String> {
    let head = s.get(..BLOCK)?;
    let [n, locals, users, parameters] = [u16_at(head, 4)?, u16_at(head, 6)?, u16_at(head, 8)?, u16_at(head, 10)?];
    let references = head[16..24].iter().rev().fold(0, |m: u64, b| m << 8 | u64::from(*b));
    let past = (0..64).find(|i| *i >= u32::from(locals) && references >> i & 1 == 1);
    let (blocks, wanted) = (s.len() / BLOCK, 1 + (n as usize).div_ceil(PER_BLOCK));
    Some(if !(1..=1_024).contains(&n) {
        format!("the instruction count is {n} and should be 1 to 1,024")
    } else if locals > 64 {
        format!("{locals} locals, and there are 64 at most")
    } else if users > locals {
        format!("{users} user locals of {locals} locals")
    } else if parameters > users {
        format!("{parameters} parameters of {users} user locals")
    } else if let Some(i) = past {
        format!("the reference mask has t{i}, and there are {locals} locals")
    } else if let Some(at) = (12..16).chain(24..BLOCK).find(|at| head[*at] != 0) {
        format!("byte {at} is {} and should be 0", head[at])
    } else if blocks != wanted {
        format!("{n} instructions take {wanted} blocks, and the sheet has {blocks}")
    } else {
        return None;
    })
}

/// The first field of a record that breaks the table of kinds.
fn record(r: &[u8; RECORD], k: usize, n: usize) -> Option<String> {
    if k >= n {
        let at = r.iter().position(|x| *x != 0)?;
        return Some(format!("the record is past the last instruction, at {}, and its byte {at} is {} and should be 0", n.saturating_sub(1), r[at]));
    }
    // the last sub, destinations and sources; then which of label one, label two, the flag and the payload are used
    let (sub, dsts, srcs, used) = match r[0] {
        ASSIGN => (2, 1..=1, 1..=1, [false, false, false, false]),
        CALL => (54, 0..=8, 0..=8, [r[10] == 1, false, true, true]),
        RET => (0, 0..=0, 0..=8, [false, false, false, false]),
        LOAD => (6, 1..=1, 0..=0, [false, false, false, true]),
        BRANCH => (0, 0..=0, 1..=1, [true, true, false, false]),
        JUMP | LABEL => (0, 0..=0, 0..=0, [true, false, false, false]),
        ABORT => (0, 0..=0, 1..=1, [false, false, false, false]),
        NOP => (0, 0..=0, 0..=0, [false, false, false, false]),
        SAVE_MEM | SAVE_SPEC_VAR => (0, 0..=0, 0..=0, [false, false, false, true]),
        PROP => (2, 0..=0, 0..=8, [false, false, false, true]),
        kind => return Some(format!("its kind is {kind}, and the last kind is 11, Prop")),
    };
    let name = a_kind(r);
    let many = |what: &str, has: u8, wants: &std::ops::RangeInclusive<u8>| {
        let wants = if wants.start() == wants.end() { format!("{}", wants.start()) } else { format!("{} to {}", wants.start(), wants.end()) };
        Some(format!("its count of {what} is {has} and should be {wants} in {name}"))
    };
    let unused = |what: &str, is: u32| Some(format!("its {what} is {is} and should be 0 in {name}"));
    if r[1] > sub {
        return Some(format!("its sub is {} and should be {} in {name}", r[1], if sub == 0 { "0".into() } else { format!("0 to {sub}") }));
    }
    if !dsts.contains(&r[8]) {
        return many("destinations", r[8], &dsts);
    }
    if !srcs.contains(&r[9]) {
        return many("sources", r[9], &srcs);
    }
    if r[10] > 1 || r[10] == 1 && !used[2] {
        return Some(format!("its abort flag is {} and should be {} in {name}", r[10], if used[2] { "0 or 1" } else { "0" }));
    }
    if !used[0] && one(r) != 0 {
        return unused(if r[0] == CALL { "label one, without an abort flag," } else { "label one" }, one(r).into());
    }
    if !used[1] && two(r) != 0 {
        return unused("label two", two(r).into());
    }
    if r[10] == 0 && r[11] != 0 {
        return unused(if r[0] == CALL { "abort local, without an abort flag," } else { "abort local" }, r[11].into());
    }
    for (what, from, many) in [("destination", 12, r[8]), ("source", 20, r[9])] {
        if let Some(i) = (many as usize..8).find(|i| r[from + i] != 0) {
            return Some(format!("its {what} place {i}, past the count of {many}, is {} and should be 0", r[from + i]));
        }
    }
    let payload = u32::from_le_bytes([r[28], r[29], r[30], r[31]]);
    if !used[3] && payload != 0 { unused("payload", payload) } else { None }
}

fn local(r: &[u8; RECORD], locals: u16) -> Option<String> {
    let listed = |what: &'static str, from: usize, many: u8| r[from..from + (many as usize).min(8)].iter().map(move |x| (what, *x));
    let mut all = listed("destination", 12, r[8]).chain(listed("source", 20, r[9])).chain((r[10] == 1).then_some(("abort local", r[11])));
    let (what, x) = all.find(|(_, x)| u16::from(*x) >= locals)?;
    let has = if locals == 1 { "is 1 local".into() } else { format!("are {locals} locals") };
    Some(format!("the {}'s {what} is t{x}, and there {has}", kind(r)))
}

fn repeated(bytes: &[u8], r: &[u8; RECORD], k: u16) -> Option<String> {
    let (first, l) = labels(bytes).find(|(at, l)| *at < k && *l == one(r))?;
    Some(format!("the Label repeats number {l}, which the Label at offset {first} has"))
}

fn missing(bytes: &[u8], r: &[u8; RECORD]) -> Option<String> {
    let names: &[u16] = match (r[0], r[10]) {
        (BRANCH, _) => &[one(r), two(r)],
        (JUMP, _) | (CALL, 1) => &[one(r)],
        _ => &[],
    };
    let l = names.iter().find(|l| labels(bytes).all(|(_, x)| x != **l))?;
    let what = if r[0] == CALL { "Call's abort action" } else { kind(r) };
    Some(format!("the {what} names label {l}, which no Label has"))
}

fn numbers(bytes: &[u8]) -> String {
    let label = labels(bytes).map(|(_, l)| l).max().unwrap_or(0);
    let attr = (0..count(bytes) as u16).filter_map(|k| record_at(bytes, k)).map(|r| u16::from_le_bytes([r[2], r[3]])).max().unwrap_or(0);
    format!(
        "the rewriting needs new labels from {} on and new attribute ids from {} on, and one of them would be above 65,535",
        u32::from(label) + 1,
        u32::from(attr) + 1
    )
}

fn hidden(r: &[u8; RECORD]) -> Option<String> {
    let name = match (r[0], r[1]) {
        (CALL, 19) => "IsParent",
        (CALL, 20) => "WriteBack",
        _ => return None,
    };
    let payload = u32::from_le_bytes([r[28], r[29], r[30], r[31]]);
    Some(format!("the {name} hides a local in its payload, {payload}, where renumbering does not reach it"))
}

fn flagged_stop(r: &[u8; RECORD]) -> Option<String> {
    let stop = r[0] == CALL && r[1] == STOP && r[10] == 1;
    stop.then(|| format!("the Stop has the abort action 'abort L{} into t{}' and should have none", one(r), r[11]))
}

// ---- graphs

fn nodes(g: &Graph) -> Option<String> {
    if g.nodes as usize > MAX_NODES {
        return Some(format!("{} nodes, and there are 64 at most", g.nodes));
    }
    let past = (g.nodes..64).find(|i| g.live >> i & 1 == 1)?;
    Some(format!("node {past} is live, and there are {} nodes", g.nodes))
}

fn triple(g: &Graph, t: usize) -> Option<String> {
    if t == 300 {
        let len = g.triples.len();
        return Some(if !len.is_multiple_of(3) {
            format!("the list of triples has {len} numbers, which is no multiple of three")
        } else {
            format!("{} triples, and there are {MAX_TRIPLES} at most", len / 3)
        });
    }
    let at = |t: usize| g.triples.get(3 * t..3 * t + 3);
    let [parent, child, edge] = *at(t)? else { return None };
    let name = format!("triple {t} ({parent},{child},{edge})");
    if parent >= g.nodes {
        return Some(format!("{name}: its parent {parent} is not below the node count, {}", g.nodes));
    }
    if child >= g.nodes {
        return Some(format!("{name}: its child {child} is not below the node count, {}", g.nodes));
    }
    let [p, c, e] = *at(t.checked_sub(1)?)? else { return None };
    Some(format!("{name}: it is not above the triple before it ({p},{c},{e})"))
}
