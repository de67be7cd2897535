//! `compare ORACLE [COUNT [SEED ..]]`: every call beside the original Rust behind oracle/, and beside the plain reading of document 01
//! (rust/harness/src/plain.rs) where the original says nothing. COUNT is how many random sheets for each SEED (2,000); a SEED is a number, or `fresh`
//! for one from the clock; without any they are 1 and fresh.
//!
//! a: every sheet of up to five instructions over small alphabets, up to six where COUNT is 20,000 or more. b: random sheets, sheets moved
//! to the edges of 10 and 11, sheets with locals that nothing mentions, one that keeps the work list full. c: damaged copies. d: graphs without and with cycles, broken ones.
//! e: every call with lent output exact, short, empty and long, between guards. f: in each accepted sheet every label, and numbers that no Label has. g: class sets of the
//! sheets of b and c. The smallest sheet, graph or class set with a difference is made smaller and printed with both answers; the status is then 1.
mod classes;
mod graphs;
mod judge;
mod sheets;
mod small;

use classes::Classes;
use harness::{Bytes, classes as random_classes, graphs as random_graphs, oracle::*, plain, random, random::Rng};
use judge::{Part, Run};
use small::{MIDDLE, NARROW, NUMBERED, WIDE, every, every_numbering};
use sorzibelu::graph::Owned;
use std::{
    env,
    process::{Child, ExitCode},
    time::{Instant, SystemTime},
};

fn met(part: &Part) -> String {
    part.met.iter().map(|(number, times)| format!(" {number}: {times}")).collect::<Vec<_>>().join(",")
}

/// a, once: it has no seed. `more` instructions than in a short run.
fn small_sheets(run: &mut Run, more: usize) {
    let mut a = Part::default();
    let start = Instant::now();
    for n in 1..=3 + more {
        every_numbering(NUMBERED, n, |sheets| run.sheets(&mut a, sheets));
    }
    for (alphabet, lengths) in [(WIDE, 1..=3 + more), (MIDDLE, 4..=4 + more), (NARROW, 5..=5 + more)] {
        for n in lengths {
            every(alphabet, n, |sheets| run.sheets(&mut a, sheets));
        }
    }
    println!(
        "a  every small sheet: {} sheets, {} accepted, {} questions to the original; refused{}; {} differences ({} s)",
        a.sheets,
        a.accepted,
        a.questions,
        met(&a),
        a.differences,
        start.elapsed().as_secs()
    );
}

/// b, c, g and d of one seed; whether every refusal was met.
fn random_ones(run: &mut Run, count: usize, seed: u64) -> bool {
    let mut rng = Rng::new(seed);
    println!("seed {seed}, {count} random sheets");
    let start = Instant::now();

    let (mut b, mut c, mut g) = (Part::default(), Part::default(), Classes::default());
    // of its own, so that the sheets and graphs of a seed stay what they were
    let mut mixing = Rng::new(!seed);
    let fullest = random::fullest().bytes();
    run.class_set(&mut g, &fullest.repeat(2));
    run.sheets(&mut b, &[fullest]);
    let mut left = count;
    while left > 0 {
        let batch = left.min(50);
        left -= batch;
        let (mut sheets, mut damaged) = (vec![], vec![]);
        for _ in 0..batch {
            let shape = random::shape(&mut rng);
            let s = match rng.below(3) {
                0 => random::lossy(&mut rng),
                1 => random::numbered(&mut rng),
                _ => random::sheet(&mut rng, shape),
            };
            damaged.extend((0..10).map(|_| random::damage(&mut rng, &s.bytes())).filter(|t| plain::check(t).is_err()));
            sheets.extend(random::edge(&mut rng, &s).map(|t| t.bytes()));
            sheets.push(s.bytes());
        }
        run.sheets(&mut b, &sheets);
        run.sheets(&mut c, &damaged);
        damaged.retain(|s| random_classes::fits(s));
        for _ in 0..batch.div_ceil(5) {
            let many = random_classes::count(&mut mixing);
            let class = random_classes::class(&mut mixing, many, |rng| {
                let some = if damaged.is_empty() || rng.chance(2) { &sheets } else { &damaged };
                &some[rng.below(some.len())]
            });
            run.class_set(&mut g, &class);
        }
    }
    println!("b  random sheets: {} sheets, {} questions to the original; rewriting or renumbering refused{}; {} differences", b.sheets, b.questions, met(&b), b.differences);
    println!("c  damaged sheets: {} sheets, refused{}; {} differences ({} s)", c.sheets, met(&c), c.differences, start.elapsed().as_secs());

    println!(
        "g  class sets: {} class sets, {} answered, refused{}; their {} sheets: {} accepted, refused{}; {} questions to the original; {} differences",
        g.whole.sheets,
        g.whole.accepted,
        met(&g.whole),
        g.each.sheets,
        g.each.accepted,
        met(&g.each),
        g.each.questions,
        g.whole.differences
    );

    // all graphs of three nodes and single edges, cycles and self-loops among them, each with one next
    let start = Instant::now();
    let mut pairs = vec![];
    for edges in 0..512u32 {
        for live in 0..8 {
            let triples = (0..9).filter(|e| edges >> e & 1 == 1).flat_map(|e| [e / 3, e % 3, 0]).collect();
            let next = random_graphs::random(&mut rng, 3, live % 2 == 0);
            pairs.push((Owned { nodes: 3, live, triples }, next));
        }
    }
    // all graphs of four nodes without a triple from a node to itself, the first in which the order of the walk has a choice; then the longest paths, up and down
    for edges in 0..4096u32 {
        let step = |e: u32| [e / 3, (e / 3 + 1 + e % 3) % 4, 0];
        let mut triples: Vec<[u32; 3]> = (0..12).filter(|e| edges >> e & 1 == 1).map(step).collect();
        triples.sort();
        pairs.push((Owned { nodes: 4, live: 1 << ((u64::from(edges) + seed) % 4), triples: triples.concat() }, Owned::default()));
    }
    pairs.push((Owned::new(64, &[63], &std::array::from_fn::<_, 63, _>(|p| [p as u32, p as u32 + 1, 0])), Owned::default()));
    pairs.push((Owned::new(64, &[0], &std::array::from_fn::<_, 63, _>(|p| [p as u32 + 1, p as u32, 0])), Owned::default()));
    for _ in 0..count / 10 {
        pairs.push(random_graphs::pair(&mut rng, false));
        pairs.push(random_graphs::pair(&mut rng, true));
        for _ in 0..5 {
            let cycles = rng.chance(2);
            let (mut g, mut next) = random_graphs::pair(&mut rng, cycles);
            for _ in 0..1 + rng.below(2) {
                let which = if rng.chance(2) { &mut g } else { &mut next };
                random_graphs::broken(&mut rng, which);
            }
            pairs.push((g, next));
        }
    }
    let (mut d, unfinished) = (Part::default(), run.unfinished);
    for some in pairs.chunks(200) {
        run.graphs(&mut d, some);
    }
    println!(
        "d  graphs: {} pairs, {} questions to the original ({} it does not finish); refused{}; {} differences ({} s)",
        d.sheets,
        d.questions,
        run.unfinished - unfinished,
        met(&d),
        d.differences,
        start.elapsed().as_secs()
    );
    let mut fine = true;
    let checks = &plain::CHECKS[..];
    for (part, name, numbers) in [(&b, "b", &[10, 11, 15][..]), (&c, "c", checks), (&d, "d", &[9, 12, 13, 14]), (&g.each, "a sheet of g", checks), (&g.whole, "g", &[1, 9, 16, 17])] {
        for number in numbers.iter().filter(|number| !part.met.contains_key(number)) {
            println!("refusal {number} was not met in {name}: a larger COUNT is needed");
            fine = false;
        }
    }
    fine
}

fn compare(oracle: Child, count: usize, seeds: &[u64]) -> bool {
    let mut run = Run { oracle, turn: 0, rooms: [0; 4], ways: [0; 3], unfinished: 0, smallest_sheet: None, smallest_class: None, smallest_graphs: None };
    small_sheets(&mut run, usize::from(count >= 20_000));
    let mut fine = true;
    for seed in seeds {
        fine &= random_ones(&mut run, count, *seed);
    }
    let [exact, short, empty, long] = run.rooms;
    println!("e  lent output between guards: exact {exact}, one short {short}, empty {empty}, long {long} times");
    let [named, unnamed, undefined] = run.ways;
    println!("f  labels looked up: named {named}, never named {unnamed}, undefined {undefined} times");
    if let Some(s) = run.smallest_sheet.take() {
        run.print_sheet(&s);
        fine = false;
    }
    if let Some(s) = run.smallest_class.take() {
        run.print_class(&s);
        fine = false;
    }
    if let Some(found) = run.smallest_graphs.take() {
        run.print_graphs(found);
        fine = false;
    }
    fine
}

fn main() -> ExitCode {
    let args: Vec<String> = env::args().skip(1).collect();
    let fresh = SystemTime::now().duration_since(SystemTime::UNIX_EPOCH).map_or(0, |d| d.as_nanos() as u64 % 1_000_000_000);
    let count = args.get(1).map_or(Ok(2_000), |x| x.parse());
    let seeds: Result<Vec<u64>, _> = args.iter().skip(2).map(|x| if x == "fresh" { Ok(fresh) } else { x.parse() }).collect();
    let (Some(path), Ok(count), Ok(mut seeds)) = (args.first(), count, seeds) else {
        eprintln!("usage: compare ORACLE [COUNT [SEED ..]]; COUNT is a number, a SEED one or the word fresh");
        return ExitCode::from(2);
    };
    if seeds.is_empty() {
        seeds = vec![1, fresh];
    }
    match start(path) {
        Ok(oracle) => ExitCode::from(u8::from(!compare(oracle, count, &seeds))),
        Err(e) => {
            eprintln!("{path}: {e}");
            ExitCode::from(2)
        }
    }
}
