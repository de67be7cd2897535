//! Graphs as text: nodes, live nodes, triples, one a line; a pair in two sections.
use super::{live, Owned};
use crate::{
    text::{digits, hint, lines, quoted, Fault, Faults, Words},
    Graph, Refusal,
};
use std::fmt::Write;

const WORDS: [&str; 6] = ["nodes", "live", "triple", "rest", "this", "next"];

/// One graph of a text, and its lines.
#[derive(Clone, Debug, Default, PartialEq, Eq)]
struct Section {
    /// The first line that belongs to it.
    first: Option<usize>,
    nodes: Option<usize>,
    live: Option<usize>,
    triples: Vec<usize>,
    rest: Option<usize>,
    graph: Owned,
}

/// What a text of graphs writes down, before any check.
///
/// ```
/// let pair = sorzibelu::graph::read("this\nnodes 1\nlive 0\nnext\nnodes 1\nlive\n").unwrap();
/// assert_eq!((pair.this().live, pair.next().unwrap().live), (1, 0));
/// ```
#[derive(Clone, Debug, PartialEq, Eq)]
pub struct Written {
    this: Section,
    next: Option<Section>,
}

impl Written {
    /// The graph, or the first one of a pair.
    pub fn this(&self) -> &Owned {
        &self.this.graph
    }

    /// The second one of a pair.
    pub fn next(&self) -> Option<&Owned> {
        self.next.as_ref().map(|s| &s.graph)
    }

    /// A pair of the first graph here and the first graph there.
    ///
    /// ```
    /// use sorzibelu::graph::read;
    /// let pair = read("nodes 1\nlive 0\n").unwrap().with_next(read("nodes 1\nlive\n").unwrap());
    /// assert_eq!(pair.next().unwrap().live, 0);
    /// ```
    pub fn with_next(self, next: Written) -> Written {
        Written { this: self.this, next: Some(next.this) }
    }

    /// Where in the text a refusal of its graphs belongs.
    ///
    /// ```
    /// use sorzibelu::{conditional, graph};
    /// let text = graph::read("nodes 2\nlive\ntriple 0 1 0\ntriple 0 2 0\n").unwrap();
    /// let refusal = conditional(text.this().graph(), 0).unwrap_err();
    /// assert_eq!(text.fault(refusal).line, 4);
    /// ```
    pub fn fault(&self, refusal: Refusal) -> Fault {
        let place = refusal.place() as usize;
        let (second, line) = match refusal.number() {
            12 => (place == 1, None),
            13 => (place >= 1000, Some(place % 1000)),
            _ => (false, None),
        };
        let section = if second { self.next.as_ref().unwrap_or(&self.this) } else { &self.this };
        let line = match (refusal.number(), line) {
            (13, Some(300)) => section.rest.or(section.triples.get(256).copied()),
            (13, Some(i)) => section.triples.get(i).copied(),
            (12, _) if section.graph.nodes <= 64 => section.live,
            _ => section.nodes,
        };
        let graphs: Vec<Graph> = [Some(self.this()), self.next()].into_iter().flatten().map(Owned::graph).collect();
        let what = format!("refused {} {}: {}", refusal.number(), refusal.place(), super::why(&graphs, None, refusal));
        Fault { line: line.or(section.first).unwrap_or(1), what }
    }
}

/// Whether a text is one of graphs, by its first word; a sheet's text starts with `locals` or another word of its heading.
///
/// ```
/// assert!(sorzibelu::graph::is_text("// M7\nthis\nnodes 3\n"));
/// assert!(!sorzibelu::graph::is_text("locals 1 user 1 parameters 0 references\nret\n"));
/// ```
pub fn is_text(text: &str) -> bool {
    lines(text).next().and_then(|mut w| w.next()).is_some_and(|w| WORDS.contains(&w))
}

/// Numbers up to the line's end, with spaces or commas between them.
fn numbers(w: &mut Words, what: &str, most: usize) -> Result<Vec<u32>, Fault> {
    let mut all = vec![];
    while let Some(word) = w.next() {
        for part in word.split(',').filter(|p| !p.is_empty()) {
            match digits(part, "").map(|d| d.parse()) {
                Some(Ok(n)) => all.push(n),
                Some(Err(_)) => return w.fault(format!("{} is too large for {what}", quoted(part))),
                None => return w.fault(format!("{} is not {what}", quoted(part))),
            }
            if all.len() > most {
                return w.fault(format!("{} where at most {most} numbers can stand", quoted(word)));
            }
        }
    }
    Ok(all)
}

impl Section {
    fn line(&mut self, w: &mut Words) -> Result<(), Fault> {
        let at = w.line;
        self.first.get_or_insert(at);
        let first = w.peek().unwrap_or_default();
        if WORDS.contains(&first) {
            w.next();
        } else if !first.starts_with(|c: char| c.is_ascii_digit()) {
            let hint = if first.starts_with(['#', ';', '%']) { ": a comment starts with //".into() } else { hint(first, WORDS) };
            return w.fault(format!("{} where nodes, live, triple, this or next should stand{hint}", quoted(first)));
        }
        match first {
            "nodes" => {
                if let Some(before) = self.nodes {
                    return w.fault(format!("'nodes' stands in line {before} already"));
                }
                self.graph.nodes = w.number("", "a number of nodes")?;
                self.nodes = Some(at);
                w.end("the line")
            }
            "live" => {
                self.live.get_or_insert(at);
                for node in numbers(w, "a node", 1_000)? {
                    if node > 63 {
                        return w.fault(format!("{node} can be no live node: there are 64 nodes at most"));
                    }
                    self.graph.live |= 1 << node;
                }
                Ok(())
            }
            "rest" => {
                let left = numbers(w, "a node or an edge", 2)?;
                if left.is_empty() || self.rest.is_some() {
                    return w.fault("'rest' is what is left of a last triple, one or two numbers, once");
                }
                self.rest = Some(at);
                self.graph.triples.extend(left);
                Ok(())
            }
            _ => {
                let t = numbers(w, "a node or an edge", 3)?;
                if t.len() != 3 {
                    return w.fault("a triple has three numbers: parent, child, edge");
                }
                if let Some(rest) = self.rest {
                    return w.fault(format!("a triple behind the 'rest' in line {rest}"));
                }
                self.triples.push(at);
                self.graph.triples.extend(t);
                Ok(())
            }
        }
    }

    fn check(&self, name: &str, end: usize, faults: &mut Faults) {
        if self.nodes.is_none() {
            faults.add(Fault { line: self.first.unwrap_or(end), what: format!("{name} has no line 'nodes N'") });
        }
    }
}

/// The graph or the pair that a text writes down, or every line that is wrong. The calls still decide whether it is accepted.
///
/// ```
/// use sorzibelu::graph;
/// let text = "nodes 3\nlive 2\ntriple 0 1 0\ntriple 1 2 0\n";
/// assert_eq!(graph::write(graph::read(text).unwrap().this()), text);
/// let faults = graph::read("node 3\ntriple 0 1\n").unwrap_err();
/// assert_eq!(faults.first[0].to_string(), "line 1: 'node' where nodes, live, triple, this or next should stand: did you mean nodes?");
/// assert_eq!(faults.first[1].to_string(), "line 2: a triple has three numbers: parent, child, edge");
/// ```
pub fn read(text: &str) -> Result<Written, Faults> {
    let mut faults = Faults::default();
    // before any section, this, next
    let mut sections = [Section::default(), Section::default(), Section::default()];
    let mut at = 0;
    for mut w in lines(text) {
        let turn = match w.peek() {
            Some("this") => 1,
            Some("next") => 2,
            _ => 0,
        };
        let done = if turn == 0 {
            sections[at].line(&mut w)
        } else if sections[turn].first.is_some() {
            w.fault(format!("'{}' stands in line {} already", WORDS[3 + turn], sections[turn].first.unwrap_or(1)))
        } else {
            at = turn;
            sections[turn].first = Some(w.line);
            w.next();
            w.end("the line")
        };
        if let Err(f) = done {
            // another sort of file: one fault says it
            let foreign = at == 0 && sections[0].nodes.is_none() && sections[0].triples.is_empty() && faults.len() > 1;
            faults.add(f);
            if foreign {
                return Err(faults);
            }
        }
    }
    let end = text.lines().count().max(1);
    let [none, this, next] = sections;
    if this.first.is_none() && next.first.is_none() {
        if faults.first.is_empty() {
            none.check("the graph", end, &mut faults);
        }
        return faults.or(Written { this: none, next: None });
    }
    if let Some(line) = none.first {
        faults.add(Fault { line, what: "a line of a graph before 'this' or 'next'".into() });
    }
    for (name, section) in [("this", &this), ("next", &next)] {
        match section.first {
            None => faults.add(Fault { line: end, what: format!("no '{name}': a pair has both 'this' and 'next'") }),
            Some(_) if faults.first.is_empty() => section.check(&format!("'{name}'"), end, &mut faults),
            _ => {}
        }
    }
    faults.or(Written { this, next: Some(next) })
}

/// The text of a graph, accepted or not. `read` gives the graph again.
///
/// ```
/// use sorzibelu::graph::{write, Owned};
/// assert_eq!(write(&Owned::new(2, &[1], &[[0, 1, 0]])), "nodes 2\nlive 1\ntriple 0 1 0\n");
/// ```
pub fn write(g: &Owned) -> String {
    let mut s = format!("nodes {}\nlive", g.nodes);
    live(g.graph()).for_each(|i| write!(s, " {i}").unwrap());
    s.push('\n');
    for t in g.triples.chunks(3) {
        s.push_str(if t.len() == 3 { "triple" } else { "rest" });
        t.iter().for_each(|x| write!(s, " {x}").unwrap());
        s.push('\n');
    }
    s
}

/// The text of a pair.
///
/// ```
/// use sorzibelu::graph::{write_pair, Owned};
/// let one = |live: &[u32]| Owned::new(1, live, &[]);
/// assert_eq!(write_pair(&one(&[0]), &one(&[])), "this\nnodes 1\nlive 0\nnext\nnodes 1\nlive\n");
/// ```
pub fn write_pair(this: &Owned, next: &Owned) -> String {
    format!("this\n{}next\n{}", write(this), write(next))
}
