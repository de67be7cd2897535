//! The page of a graph and of a pair: what the proved calls answer, each answer with its reason.
use super::{reasons::*, triple, write, write_pair, Owned};
use crate::{conditional, dying_nodes, in_use, Graph, Refusal};

/// `0 -> 1 -> 2, and `; nothing where the path is one node.
fn shown(path: &[u32]) -> String {
    match path {
        [_] => String::new(),
        _ => path.iter().map(u32::to_string).collect::<Vec<_>>().join(" -> ") + ", and ",
    }
}

/// Why a node is in use.
fn use_reason(g: Graph, node: u32) -> Option<String> {
    let path = path(g, node, |x| is_live(g, x))?;
    Some(format!("{}{} is live", shown(&path), path.last()?))
}

/// Why a node is conditional.
fn conditional_reason(g: Graph, node: u32) -> Option<String> {
    let path = path(g, node, |x| incoming(g, x).count() > 1)?;
    let last = *path.last()?;
    let two: Vec<String> = incoming(g, last).take(2).map(triple).collect();
    Some(format!("{}{} lead to {last}", shown(&path), two.join(" and ")))
}

/// One line: the proved answer, and the reason that was found for it.
fn answer(node: u32, yes: bool, reason: Option<String>) -> String {
    debug_assert_eq!(yes, reason.is_some(), "the search disagrees with the call at node {node}");
    match (yes, reason) {
        (true, Some(why)) => format!("{node}: yes, {why}\n"),
        (true, None) => format!("{node}: yes\n"),
        (false, _) => format!("{node}: no\n"),
    }
}

/// Whether a node is in use, with a path to a live node as the reason.
///
/// ```
/// use sorzibelu::graph::{in_use_line, Owned};
/// let graph = Owned::new(3, &[1], &[[0, 1, 0], [1, 2, 0]]);
/// assert_eq!(in_use_line(&graph, 0).unwrap(), "0: yes, 0 -> 1, and 1 is live\n");
/// assert_eq!(in_use_line(&graph, 2).unwrap(), "2: no\n");
/// ```
pub fn in_use_line(graph: &Owned, node: u32) -> Result<String, Refusal> {
    let g = graph.graph();
    Ok(answer(node, in_use(g, node)?, use_reason(g, node)))
}

/// Whether a node is conditional, with a path to a node that two triples lead to as the reason.
///
/// ```
/// use sorzibelu::graph::{conditional_line, Owned};
/// let graph = Owned::new(3, &[], &[[0, 1, 0], [1, 2, 0], [1, 2, 7]]);
/// assert_eq!(conditional_line(&graph, 0).unwrap(), "0: yes, 0 -> 1 -> 2, and 1,2,0 and 1,2,7 lead to 2\n");
/// ```
pub fn conditional_line(graph: &Owned, node: u32) -> Result<String, Refusal> {
    let g = graph.graph();
    Ok(answer(node, conditional(g, node)?, conditional_reason(g, node)))
}

/// The page of a graph: its text, and for each node whether it is in use and whether it is conditional, with a path as the reason.
///
/// ```
/// use sorzibelu::graph::{page, Owned};
/// let page = page(&Owned::new(3, &[2], &[[0, 1, 0], [0, 1, 1], [1, 2, 0]])).unwrap();
/// assert!(page.contains("in use\n0: yes, 0 -> 1 -> 2, and 2 is live\n"));
/// assert!(page.contains("conditional\n0: yes, 0 -> 1, and 0,1,0 and 0,1,1 lead to 1\n"));
/// assert!(page.ends_with("2: no\n"));
/// ```
pub fn page(graph: &Owned) -> Result<String, Refusal> {
    let g = graph.graph();
    // a graph without nodes is still checked
    dying_nodes(g, g)?;
    let used: String = (0..g.nodes).map(|x| in_use_line(graph, x)).collect::<Result<_, _>>()?;
    let conditional: String = (0..g.nodes).map(|x| conditional_line(graph, x)).collect::<Result<_, _>>()?;
    Ok(format!("graph\n{}\nin use\n{used}\nconditional\n{conditional}", write(graph)))
}

/// Why a node of a pair dies or stays.
#[derive(Clone, Debug)]
pub(crate) struct Reason {
    /// Empty where none was found.
    pub why: String,
    /// The child through which the walk came.
    pub child: Option<u32>,
    /// It stays, but would die if a child of it did.
    pub idle: bool,
}

/// The nodes that die, in order, by the proved call, and the reason of every node of the graph.
pub(crate) fn reasons(this: &Owned, next: &Owned) -> Result<(Vec<u32>, Vec<Reason>), Refusal> {
    let (a, b) = (this.graph(), next.graph());
    let listed: Vec<u32> = dying_nodes(a, b)?.into_iter().map(u32::from).collect();
    let used: Vec<bool> = (0..b.nodes).map(|x| in_use(b, x)).collect::<Result<_, _>>()?;
    let used = |x: u32| used.get(x as usize) == Some(&true);
    let walked = walk(a, b, used);
    debug_assert!(walked.iter().map(|(x, _)| *x).eq(listed.iter().copied()), "the search disagrees with the call dying");
    let there = |x: u32, what: &str| if x < b.nodes { format!("in the next graph {what}") } else { "not a node of the next graph".into() };
    let reason = |node: u32| {
        let step = walked.iter().find(|(x, _)| *x == node);
        let child = step.and_then(|(_, child)| *child);
        let by = child.and_then(|c| incoming(a, c).find(|t| t[0] == node).map(triple)).unwrap_or_default();
        let here = if is_live(a, node) { "live here" } else { "not live here" };
        let why = match (listed.contains(&node), step, child) {
            (true, Some(_), Some(child)) => format!("parent of {child} by {by}, {}", there(node, "not in use")),
            (true, Some(_), None) => format!("live here, {}", there(node, "neither live nor in use")),
            (false, None, _) if is_live(b, node) => format!("{here}, live in the next graph"),
            (false, None, _) if used(node) => format!("{here}, in use in the next graph: {}", use_reason(b, node).unwrap_or_default()),
            (false, None, _) => "not live here, and no child of it dies".into(),
            _ => String::new(),
        };
        Reason { why, child, idle: step.is_none() && !used(node) && !listed.contains(&node) }
    };
    let all = (0..a.nodes).map(reason).collect();
    Ok((listed, all))
}

/// `2: live here, ..`.
fn because(node: u32, reason: &Reason) -> String {
    if reason.why.is_empty() {
        format!("{node}\n")
    } else {
        format!("{node}: {}\n", reason.why)
    }
}

/// The nodes that die from a graph to the next, in order, each with its reason; `none` where no node dies.
///
/// ```
/// use sorzibelu::graph::{dying_lines, Owned};
/// let (this, next) = (Owned::new(1, &[0], &[]), Owned::new(1, &[], &[]));
/// assert_eq!(dying_lines(&this, &next).unwrap(), "0: live here, in the next graph neither live nor in use\n");
/// assert_eq!(dying_lines(&next, &this).unwrap(), "none\n");
/// ```
pub fn dying_lines(this: &Owned, next: &Owned) -> Result<String, Refusal> {
    let (listed, reasons) = reasons(this, next)?;
    let lines: String = listed.iter().map(|x| because(*x, &reasons[*x as usize])).collect();
    Ok(if lines.is_empty() { "none\n".into() } else { lines })
}

/// The page of a pair: both texts, the nodes that die from the first to the second in their order, and the live ones that stay, each with its reason.
///
/// ```
/// use sorzibelu::graph::{pair_page, Owned};
/// let chain = [[0, 1, 0], [1, 2, 0]];
/// let page = pair_page(&Owned::new(3, &[2], &chain), &Owned::new(3, &[], &chain)).unwrap();
/// assert!(page.contains("dying\n2: live here, in the next graph neither live nor in use\n1: parent of 2 by 1,2,0, in the next graph not in use\n"));
/// ```
pub fn pair_page(this: &Owned, next: &Owned) -> Result<String, Refusal> {
    let (listed, reasons) = reasons(this, next)?;
    let live = (0..this.nodes).filter(|x| is_live(this.graph(), *x) && !listed.contains(x));
    let mut stay: String = live.map(|x| because(x, &reasons[x as usize])).collect();
    if stay.is_empty() {
        stay = "none\n".into();
    }
    Ok(format!("{}\ndying\n{}\nstaying\n{stay}", write_pair(this, next), dying_lines(this, next)?))
}
