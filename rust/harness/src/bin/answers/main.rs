//! `answers ORACLE FILE`: writes the stored answers that crates/replay replays, in the format of crates/replay/FORMAT.txt.
//!
//! Answers of accepted sheets, 10, 11 and 15 and the sheets of class sets among them, of labels and of graphs are the original's, behind oracle/. Refusals,
//! short output and the questions that the original does not finish are answered by the plain reading (rust/harness/src/plain.rs); no answer comes from the proved calls.
//! Then the file is read back and replayed with the proved calls, and what crates/replay must print is printed.
mod classes;
mod edges;
mod file;

use edges::{edges, flagged_stops, lookups, numberings};
use file::*;
use harness::{Bytes, graphs, oracle::*, plain, random, random::Rng};
use sorzibelu::{
    Lookup,
    graph::Owned,
    sheet::{MAX_BYTES, Sheet},
};
use std::{
    collections::{BTreeMap, BTreeSet},
    env, fs,
    process::{Child, ExitCode},
};

struct Maker {
    oracle: Child,
    rng: Rng,
    /// These two are for renumber and label alone, so that the other calls' cases stay as they were.
    numbering: Rng,
    looking: Rng,
    cases: Vec<Case>,
}

impl Maker {
    /// All calls on a sheet: output exact, and one of short, empty and long for each; some of the sheets are asked for a label.
    fn sheet(&mut self, s: &[u8]) {
        let case = |op, lent, result, written: &[u8]| Case { op, lent, result, input: s.to_vec(), second: vec![], written: written.to_vec() };
        let checked = plain::check(s);
        self.cases.push(case(CHECK, 0, checked.map(|()| 0), &[]));
        if self.looking.chance(if checked.is_ok() { 2 } else { 4 }) {
            self.any_label(s);
        }
        if let Err(r) = checked {
            let few = self.rng.below(40);
            for (op, enough) in [(FLOW, 6144), (LIVE, 16_384), (REWRITE, MAX_BYTES)] {
                let lent = if self.rng.chance(3) { enough } else { few };
                self.cases.push(case(op, lent, Err(r), &[]));
            }
            let lent = if self.numbering.chance(3) { s.len().min(MOST) } else { few };
            self.cases.push(case(RENUMBER, lent, Err(r), &[]));
            return;
        }
        let n = Sheet::of_bytes(s).code.len();
        for op in [FLOW, LIVE, REWRITE] {
            let (status, data) = ask(&mut self.oracle, op, s);
            let (exact, most, result, written) = match (op, status) {
                (FLOW, 0) => (data.len() / 2, 8_192, Ok(data.len() as u32 / 12), &data[..]),
                (LIVE, 0) => (16 * n, MOST, Ok(u32::from_le_bytes(data[16 * n..].try_into().unwrap())), &data[..16 * n]),
                (REWRITE, 0) => (MAX_BYTES, MOST, Ok(data.len() as u32), &data[..]),
                (REWRITE, 10 | 11) => (MAX_BYTES, MOST, Err((status as u16, 0)), &[][..]),
                _ => panic!("the original answers {status} to question {op}"),
            };
            self.cases.push(case(op, exact, result, written));
            let more = exact + 1 + self.rng.below((most - exact).min(60));
            let (lent, result, written) = match self.rng.below(3) {
                0 => (exact - 1, Err((9, 0)), &[][..]),
                1 => (0, Err((9, 0)), &[][..]),
                _ => (more, result, written),
            };
            self.cases.push(case(op, lent, result, written));
        }
        self.renumbering(s);
    }

    /// Renumber on an accepted sheet: output exact, and one of short, empty and long; 15 comes before 9.
    fn renumbering(&mut self, s: &[u8]) {
        let (status, data) = ask(&mut self.oracle, ELIMINATE, s);
        let (result, written) = match status {
            0 => (Ok(data.len() as u32), &data[..]),
            15 => (Err((15, u16::from_le_bytes([data[0], data[1]]))), &[][..]),
            _ => panic!("the original answers {status} to question {ELIMINATE}"),
        };
        let exact = s.len();
        let other = [exact - 1, 0, exact + 1 + self.numbering.below(60)][self.numbering.below(3)];
        for lent in [exact, other] {
            let short = status == 0 && lent < exact;
            let (result, written) = if short { (Err((9, 0)), &[][..]) } else { (result, written) };
            self.cases.push(Case { op: RENUMBER, lent, result, input: s.to_vec(), second: vec![], written: written.to_vec() });
        }
    }

    /// Renumber on a sheet and on what rewriting leaves of it.
    fn renumberings(&mut self, s: &[u8]) {
        self.renumbering(s);
        if let (0, new) = ask(&mut self.oracle, REWRITE, s)
            && new != s
        {
            self.renumbering(&new);
        }
    }

    /// The lookup of labels.
    fn labels(&mut self, s: &[u8], asked: &[u32]) {
        let known = plain::check(s).map(|()| match ask(&mut self.oracle, LABELS, s) {
            (0, data) => labels(&data),
            (status, _) => panic!("the original answers {status} to question {LABELS}"),
        });
        for label in asked {
            let found = known.as_ref().map(|known| known.get(label).copied().unwrap_or(Lookup::Undefined));
            let result = found.map(plain::packed).map_err(|r| *r);
            self.cases.push(Case { op: LABEL, lent: 0, result, input: s.to_vec(), second: label.to_le_bytes().to_vec(), written: vec![] });
        }
    }

    /// The lookup of one of a sheet's labels, mostly, or of another number.
    fn any_label(&mut self, s: &[u8]) {
        let numbers = plain::check(s).map_or(vec![], |()| plain::labels(&Sheet::of_bytes(s).code));
        let label = match numbers.len() {
            0 => self.looking.below(3) as u32,
            many => numbers[self.looking.below(many)] + u32::from(self.looking.chance(8)),
        };
        self.labels(s, &[label]);
    }

    /// In use and conditional of a node.
    fn node(&mut self, a: &Owned, node: u32) {
        let g = a.graph();
        for op in [IN_USE, CONDITIONAL] {
            let plain = if op == IN_USE { plain::in_use(g, node) } else { plain::conditional(g, node) };
            let result = plain.map(|yes| match ask(&mut self.oracle, op, &[payload(g), node.to_le_bytes().to_vec()].concat()) {
                (0, data) => data[0] as u32,
                _ => yes as u32,
            });
            self.cases.push(Case { op, lent: 0, result, input: given(g), second: node.to_le_bytes().to_vec(), written: vec![] });
        }
    }

    /// Dying of two graphs: output exact, and one of short, empty and long.
    fn dying(&mut self, a: &Owned, b: &Owned) {
        let (g, next) = (a.graph(), b.graph());
        let exact = a.nodes.min(64) as usize;
        let rooms = [exact, [exact.saturating_sub(1), 0, exact + 1 + self.rng.below(60)][self.rng.below(3)]];
        for lent in rooms {
            let listed = plain::dying(g, next, lent).map(|listed| match ask(&mut self.oracle, DYING, &[payload(g), payload(next)].concat()) {
                (0, data) => data[4..].to_vec(),
                _ => listed,
            });
            let result = listed.as_ref().map(|l| l.len() as u32).map_err(|r| *r);
            self.cases.push(Case { op: DYING, lent, result, input: given(g), second: given(next), written: listed.unwrap_or_default() });
        }
    }

    fn graphs(&mut self, a: &Owned, b: &Owned) {
        let node = self.rng.below(a.nodes.clamp(1, 64) as usize) as u32;
        self.node(a, node);
        self.dying(a, b);
    }

    /// Stored answers that are wrong on purpose: up to so many ways for each call.
    fn made_wrong(&mut self) {
        let ends = |c: &Case| c.written.len() > 1 && c.written.last() != Some(&FILLING);
        let mut wrong = vec![];
        for op in 1..=LABEL {
            let writes = matches!(op, FLOW | LIVE | REWRITE | DYING | RENUMBER);
            let of = |accepted: bool| self.cases.iter().filter(move |c| c.op == op && c.result.is_ok() == accepted && (!accepted || !writes || ends(c)));
            for (i, c) in of(true).step_by(1 + of(true).count() / 3).enumerate() {
                let Ok(value) = c.result else { continue };
                wrong.push(Case { result: Ok(value + 1), ..c.clone() });
                wrong.push(Case { result: Err((i as u16 + 1, value as u16)), ..c.clone() });
                wrong.push(Case { result: Err((9, 0)), written: vec![], ..c.clone() });
                if ends(c) {
                    let mut changed = |f: &dyn Fn(&mut Vec<u8>)| {
                        let mut w = c.written.clone();
                        f(&mut w);
                        wrong.push(Case { written: w, ..c.clone() });
                    };
                    changed(&|w| w[0] ^= 1);
                    changed(&|w| *w.last_mut().unwrap() ^= 0x40);
                    changed(&|w| w.truncate(w.len() - 1));
                    changed(&|w| w.push(0));
                    if op == FLOW {
                        changed(&|w| w.truncate(w.len() - 2));
                    }
                }
            }
            for c in of(false).step_by(1 + of(false).count() / 3) {
                let Err((number, place)) = c.result else { continue };
                wrong.push(Case { result: Err((number + 1, place)), ..c.clone() });
                wrong.push(Case { result: Err((number, place + 1)), ..c.clone() });
                wrong.push(Case { result: Ok(place as u32), ..c.clone() });
                if c.lent > 0 {
                    wrong.push(Case { written: vec![0], ..c.clone() });
                }
            }
        }
        // another way with the same offset
        for c in self.cases.iter().filter(|c| c.op == LABEL && c.result.is_ok()).step_by(40) {
            let turned = |value: u32, by: u32| 65_536 * (1 + (value / 65_536 - 1 + by) % 3) + value % 65_536;
            wrong.extend([1, 2].map(|by| Case { result: c.result.map(|value| turned(value, by)), ..c.clone() }));
        }
        // 9 for 15, and 15 at another place; 4, 5 and nothing for 18, and 18 at another place
        for c in self.cases.iter().filter(|c| matches!(c.result, Err((15, _)))).step_by(12) {
            let place = c.result.map_or_else(|(_, place)| place, |_| 0);
            wrong.extend([(9, 0), (15, place + 1)].map(|r| Case { result: Err(r), ..c.clone() }));
        }
        for c in self.cases.iter().filter(|c| matches!(c.result, Err((18, _)))).step_by(30) {
            let place = c.result.map_or_else(|(_, place)| place, |_| 0);
            wrong.extend([Err((4, place)), Err((5, place)), Ok(0), Err((18, place + 1))].map(|result| Case { result, ..c.clone() }));
        }
        self.cases.extend(wrong.into_iter().map(|c| Case { op: c.op + WRONG, ..c }));
    }
}

fn make(oracle: Child) -> Vec<Case> {
    let mut m = Maker { oracle, rng: Rng::new(11), numbering: Rng::new(13), looking: Rng::new(14), cases: vec![] };
    for s in edges() {
        m.sheet(&s);
    }
    let mut rng = Rng::new(12);
    for i in 0..170 {
        let shape = match i {
            0 => random::Shape { n: 1_024, locals: 64, labels: 200, flags: true },
            1 => random::Shape { n: 1_023, locals: 64, labels: 0, flags: false },
            _ => random::Shape { n: 1 + rng.below(20), locals: rng.below(7), labels: rng.below(6), flags: rng.chance(2) },
        };
        let s = random::sheet(&mut rng, shape).bytes();
        m.sheet(&s);
        if i > 1 {
            m.sheet(&random::damage(&mut rng, &s));
        }
    }
    let mut edges = 0;
    while edges < 24 {
        let s = random::lossy(&mut rng);
        if s.code.len() < 40 {
            m.sheet(&s.bytes());
            if let Some(t) = random::edge(&mut rng, &s) {
                m.sheet(&t.bytes());
                edges += 1;
            }
        }
    }
    for s in numberings() {
        m.renumberings(&s.bytes());
    }
    for _ in 0..90 {
        let s = random::numbered(&mut m.numbering);
        if s.code.len() < 60 {
            m.renumberings(&s.bytes());
        }
    }
    for (s, asked) in lookups() {
        m.labels(&s, &asked);
    }
    for s in flagged_stops() {
        m.sheet(&s);
        m.labels(&s, &[1]);
    }
    // M7, M8, cycles and chains; then random graphs, fine, cyclic and broken
    let chain = [[0, 1, 0], [1, 2, 0]];
    let none = Owned::default();
    let doubled: Vec<[u32; 3]> = (0..40).flat_map(|p| [[p, p + 1, 0], [p, p + 1, 1]]).collect();
    let ring: Vec<[u32; 3]> = (0..64).map(|p| [p, (p + 1) % 64, 0]).collect();
    let full: Vec<[u32; 3]> = (0..256).map(|i| [i / 4, (i / 4 + i % 4) % 64, 0]).collect::<BTreeSet<_>>().into_iter().collect();
    for (a, b) in [
        (Owned::new(3, &[2], &chain), Owned::new(3, &[], &chain)),
        (Owned::new(3, &[0, 1, 2], &chain), Owned::new(3, &[0, 2], &chain)),
        (Owned::new(3, &[2], &[[0, 1, 0], [0, 2, 0], [1, 0, 0]]), none.clone()),
        (Owned::new(3, &[1], &[[0, 1, 0], [0, 2, 0], [2, 0, 0]]), none.clone()),
        (Owned::new(2, &[0], &[[0, 1, 0], [1, 0, 0]]), Owned::new(2, &[], &[[0, 1, 0], [1, 0, 0]])),
        (Owned::new(4, &[0, 1, 2], &[[1, 0, 0], [2, 0, 0], [2, 1, 0], [3, 1, 0]]), none.clone()),
        (Owned::new(3, &[1, 2], &[[0, 1, 0], [0, 2, 0]]), none.clone()),
        (Owned::new(41, &[40], &doubled), Owned::new(41, &[], &doubled)),
        (Owned::new(64, &[63], &ring), Owned::new(64, &[], &ring)),
        (Owned::new(64, &[0, 63], &full), Owned::new(63, &[1], &[])),
        (Owned::new(1, &[0], &[[0, 0, 0]]), none.clone()),
        (none.clone(), none.clone()),
    ] {
        for node in (0..a.nodes.min(5)).chain([a.nodes, a.nodes + 1, u32::MAX]) {
            m.node(&a, node);
        }
        m.dying(&a, &b);
        m.dying(&b, &a);
    }
    // 12 and 13 at their edges, in either graph
    let fine = Owned::new(2, &[0], &[[0, 1, 0]]);
    let long = |count: u32, spoilt: bool| {
        let mut triples: Vec<[u32; 3]> = (0..count).map(|i| [i / 8, i / 8, i]).collect();
        if spoilt {
            triples[count as usize - 1][2] = triples[count as usize - 2][2];
        }
        Owned::new(64, &[63], &triples)
    };
    let mut edges = vec![long(255, true), long(256, false), long(256, true), long(257, false)];
    edges.extend([64, 65, 66, u32::MAX].map(|nodes| Owned { nodes, ..fine.clone() }));
    edges.extend([1, 2, 3, 63, 64].map(|nodes| Owned { nodes, live: 1 << (nodes - 1), triples: vec![] }));
    edges.extend([0, 1, 2, 3, 63].map(|nodes| Owned { nodes, live: 1 << nodes, triples: vec![] }));
    edges.extend([1, 2, 4, 5, 769, 770, 772].map(|len| Owned { nodes: 2, live: 0, triples: vec![9; len] }));
    edges.extend([[0, 2, 0], [2, 0, 0], [u32::MAX, 0, 0], [0, u32::MAX, 0]].map(|t| Owned::new(2, &[], &[t])));
    edges.extend([[0, 1, 0], [0, 0, 9], [0, 1, 1], [1, 0, 0]].map(|t| Owned::new(2, &[], &[[0, 1, 0], t])));
    for g in &edges {
        m.graphs(g, &fine);
        m.dying(&fine, g);
        m.dying(g, g);
    }
    for i in 0..240 {
        let (mut a, mut b) = graphs::pair(&mut rng, i % 3 == 0);
        if i % 2 == 0 {
            graphs::broken(&mut rng, if i % 4 == 0 { &mut a } else { &mut b });
        }
        m.graphs(&a, &b);
    }
    m.made_wrong();
    m.class_sets();
    m.cases
}

/// How many cases of each call are accepted and how many have each refusal; those made wrong are left out.
fn tell(cases: &[Case]) {
    for (op, name) in (1..).zip(NAMES) {
        let mut counts: BTreeMap<u16, usize> = BTreeMap::new();
        for c in cases.iter().filter(|c| c.op == op) {
            *counts.entry(c.result.map_or_else(|(number, _)| number, |_| 0)).or_default() += 1;
        }
        let refused: Vec<String> = counts.iter().filter(|(number, _)| **number > 0).map(|(number, times)| format!(" {number}: {times}")).collect();
        eprintln!("{name}: accepted {}, refused{}", counts.get(&0).unwrap_or(&0), refused.join(","));
    }
}

fn main() -> ExitCode {
    let args: Vec<String> = env::args().skip(1).collect();
    let [oracle, to] = &args[..] else {
        eprintln!("usage: answers ORACLE FILE");
        return ExitCode::from(2);
    };
    let oracle = match start(oracle) {
        Ok(oracle) => oracle,
        Err(e) => {
            eprintln!("{oracle}: {e}");
            return ExitCode::from(2);
        }
    };
    let cases = make(oracle);
    tell(&cases);
    let file = write_file(&cases);
    if let Err(e) = fs::write(to, &file) {
        eprintln!("{to}: {e}");
        return ExitCode::from(2);
    }
    let bad = replay(&file);
    eprintln!("{to}: {} bytes", file.len());
    if bad == 0 { ExitCode::SUCCESS } else { ExitCode::FAILURE }
}
