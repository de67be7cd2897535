//! `bench [ORACLE]`: times the proved calls beside the small program of rust/harness/src/masks.rs on the same sheets and graphs, in one run; with an oracle, beside the original
//! Rust as well, over a pipe whose own cost is measured in the same rounds and taken off. `bench families` only says how many blocks each looped sheet takes; `bench repeat SHEET` only runs
//! live on a sheet of the table 20,000 times, for a profiler.
use harness::{masks, oracle::*, plain, random, random::Rng, Bytes};
use sorzibelu::{check, conditional, dying, flow, in_use, live, live_class, renumber, rewrite, sheet::*, Graph, Lookup, LIVE_BYTES, MAX_CLASS_SHEETS, NUMBERS_PER_SHEET};
use std::{hint::black_box, process::Child, time::Instant};

const ROUNDS: usize = 200;
const ROUND_MS: u128 = 2;

/// No such question: the oracle reads the payload and answers at once.
const PIPE: u8 = 99;

type Call<'a> = Box<dyn FnMut() + 'a>;

/// The call, with its answer kept from the optimiser.
fn call<'a, A>(mut f: impl FnMut() -> A + 'a) -> Call<'a> {
    Box::new(move || drop(black_box(f())))
}

/// The best round of each call in microseconds a call. The calls take turns, so that all of them meet the same machine.
fn times(calls: &mut [Call]) -> Vec<f64> {
    let mut best = vec![f64::MAX; calls.len()];
    for _ in 0..ROUNDS {
        for (call, best) in calls.iter_mut().zip(&mut best) {
            let (mut count, start) = (0, Instant::now());
            while start.elapsed().as_millis() < ROUND_MS {
                call();
                count += 1;
            }
            *best = best.min(start.elapsed().as_nanos() as f64 / 1000.0 / count as f64);
        }
    }
    best
}

// ---- sheets

fn label(l: usize) -> Instruction {
    Instruction { one: l as u16, ..Instruction::new(LABEL) }
}

fn branch(then: usize, other: usize, on: usize) -> Instruction {
    Instruction { one: then as u16, two: other as u16, srcs: vec![on as u8], ..Instruction::new(BRANCH) }
}

fn ret() -> Instruction {
    Instruction::new(RET)
}

fn of(code: Vec<Instruction>) -> Sheet {
    Sheet { locals: 64, user_locals: 64, code, ..Default::default() }
}

/// 1,024 instructions one after the other, as random as they come.
fn straight(rng: &mut Rng) -> Sheet {
    let mut code: Vec<Instruction> = (1..1024)
        .map(|_| {
            let r = random::sheet(rng, random::Shape { n: 2, locals: 64, labels: 0, flags: false }).code.remove(0);
            let exits = matches!(r.kind, RET | ABORT) || r.kind == CALL && r.sub == STOP;
            if exits { Instruction::new(NOP) } else { r }
        })
        .collect();
    code.push(ret());
    of(code)
}

/// 1,022 flagged Calls, each a block: on to the next one, and to one Label before, among or behind them. The sources are such that a block learns of one local at a time.
fn calls(place: usize, source: fn(usize) -> Option<usize>) -> Sheet {
    let mut code: Vec<Instruction> = (0..1022)
        .map(|i| {
            let srcs = source(1021 - i).map(|x| x as u8).into_iter().collect();
            Instruction { sub: 28, one: 1, srcs, abort: Some(63), ..Instruction::new(CALL) }
        })
        .collect();
    code.insert(place, label(1));
    code.push(ret());
    of(code)
}

/// A loop within a loop, 341 deep: all Labels, then from the innermost outward a Branch back to each, or out of it.
fn nested(source: fn(usize) -> usize) -> Sheet {
    let mut code: Vec<Instruction> = (0..341).map(label).collect();
    for i in 0..341 {
        code.extend([branch(340 - i, 1000 + i, source(i)), label(1000 + i)]);
    }
    code.push(ret());
    of(code)
}

/// A chain of 511 Labels, each with a Branch to some Label and on to the next.
fn chain(back: fn(usize) -> usize, source: fn(usize) -> usize) -> Sheet {
    let mut code: Vec<Instruction> = (0..511).flat_map(|i| [label(i), branch(back(i), i + 1, source(510 - i))]).collect();
    code.extend([label(511), ret()]);
    of(code)
}

/// 511 Branches that all name the last two of 512 Labels: the longest search that check 7 can be led to.
fn searched() -> Sheet {
    let mut code = vec![branch(510, 511, 0); 511];
    code.extend((0..512).map(label));
    code.push(ret());
    of(code)
}

/// 684 Loads that nobody reads, and 68 times a Branch whose else edge loses eight references: 1,020 instructions when rewritten, 680 of them new.
fn losing() -> Sheet {
    let mut code: Vec<Instruction> = (0..684).map(|k| Instruction { dsts: vec![8 + (k % 55) as u8], ..Instruction::new(LOAD) }).collect();
    for i in 0..68 {
        let eight = Instruction { srcs: (0..8).collect(), ..ret() };
        code.extend([branch(2 * i, 2 * i + 1, 63), label(2 * i), eight, label(2 * i + 1), ret()]);
    }
    Sheet { references: 255, ..of(code) }
}

/// The sheet without user locals, and with a Not for each IsParent and WriteBack, so that renumbering accepts it and has work to do.
fn numbered(sheet: &Sheet) -> Sheet {
    let mut sheet = Sheet { user_locals: 0, parameters: 0, references: u64::MAX, ..sheet.clone() };
    sheet.code.iter_mut().filter(|r| r.kind == CALL && matches!(r.sub, 19 | 20)).for_each(|r| r.sub = 28);
    sheet
}

/// 1,023 Assigns over the last eight of 64 locals: 56 vanish.
fn unmentioned() -> Sheet {
    let local = |k: usize| vec![(63 - k % 8) as u8];
    let mut code: Vec<Instruction> = (0..1023).map(|k| Instruction { dsts: local(k), srcs: local(k / 8), ..Instruction::new(ASSIGN) }).collect();
    code.push(ret());
    Sheet { user_locals: 0, references: u64::MAX, ..of(code) }
}

/// 1,022 flagged Calls with both lists full, from the last local to the first and round again.
fn full() -> Sheet {
    let local = |k: usize| (63 - k % 64) as u8;
    let eight = |from: usize| (from..from + 8).map(local).collect();
    let not = |k: usize| Instruction { sub: 28, one: 1, dsts: eight(k), srcs: eight(k + 8), abort: Some(local(k + 16)), ..Instruction::new(CALL) };
    let mut code = vec![label(1)];
    code.extend((0..1022).map(|k| not(17 * k)));
    code.push(Instruction { srcs: eight(0), ..ret() });
    Sheet { user_locals: 0, references: u64::MAX, ..of(code) }
}

/// Looped sheets of 1,024 instructions and 64 locals.
fn families() -> Vec<(&'static str, Sheet)> {
    let (last, each, second) = (
        |d: usize| (d < 63).then_some(d),
        |d: usize| Some(d % 63),
        |d: usize| (d.is_multiple_of(2) && d < 126).then_some(d / 2),
    );
    vec![
        ("Calls, Label before, the last 63 have a source", calls(0, last)),
        ("Calls, Label before, all have one", calls(0, each)),
        ("Calls, Label before, every second of the last 126", calls(0, second)),
        ("Calls, Label among, the last 63", calls(511, last)),
        ("Calls, Label among, all", calls(511, each)),
        ("Calls, Label behind, the last 63", calls(1022, last)),
        ("Calls, Label behind, all", calls(1022, each)),
        ("nested Branches, inward sources", nested(|i| i % 64)),
        ("nested Branches, the outermost 64", nested(|i| (340 - i).min(63))),
        ("nested Branches, the innermost 64", nested(|i| i.min(63))),
        ("chain of Branches to the first Label", chain(|_| 0, |d| d % 64)),
        ("chain of Branches to their own Label", chain(|i| i, |d| d % 64)),
        ("chain of Branches to the mirrored Label", chain(|i| 510 - i, |d| d % 64)),
        ("chain of Branches to the Label before", chain(|i| i.saturating_sub(1), |d| d % 64)),
    ]
}

fn taken(sheet: &Sheet) -> u32 {
    live(&sheet.bytes(), &mut vec![0; 16 * 1024]).unwrap()
}

// ---- tables

fn cell(x: Option<f64>) -> String {
    x.map_or(String::new(), |x| format!("{x:.2}"))
}

/// The proved call, the small program, the small program with a table of labels; the original, with the pipe taken off.
fn row<'a>(name: &str, proved: Call<'a>, small: Option<Call<'a>>, tabled: Option<Call<'a>>, original: Option<(&'a mut Child, u8, &'a [u8])>) {
    let (has_small, has_tabled) = (small.is_some(), tabled.is_some());
    let mut calls: Vec<Call> = [Some(proved), small, tabled].into_iter().flatten().collect();
    let mut finishes = false;
    if let Some((oracle, op, bytes)) = original {
        finishes = ask(oracle, op, bytes).0 == 0;
        if finishes {
            let shared = std::rc::Rc::new(std::cell::RefCell::new(oracle));
            let other = shared.clone();
            calls.push(call(move || ask(&mut shared.borrow_mut(), op, bytes)));
            calls.push(call(move || ask(&mut other.borrow_mut(), PIPE, bytes)));
        }
    }
    let mut t = times(&mut calls).into_iter();
    let proved = t.next().unwrap();
    let small = has_small.then(|| t.next().unwrap());
    let tabled = has_tabled.then(|| t.next().unwrap());
    let original = finishes.then(|| t.next().unwrap() - t.next().unwrap());
    let cells = [
        Some(proved),
        small,
        small.map(|x| proved / x),
        tabled,
        tabled.map(|x| proved / x),
        original,
        original.map(|x| x / proved),
    ];
    println!("| {name} | {} |", cells.map(cell).join(" | "));
}

/// 16 sheets in one class set beside 16 calls of live over the same bytes, each into bytes of its own.
fn class_row(name: &str, sheets: &[&Sheet]) {
    let each: Vec<Vec<u8>> = sheets.iter().cycle().take(MAX_CLASS_SHEETS).map(|s| s.bytes()).collect();
    let class = each.concat();
    let (mut sets, mut answers) = (vec![0; LIVE_BYTES * each.len()], vec![0; NUMBERS_PER_SHEET * each.len()]);
    let mut other = sets.clone();
    let t = times(&mut [
        call(|| live_class(black_box(&class), &mut sets, &mut answers)),
        call(|| class.chunks(class.len() / each.len()).zip(other.chunks_mut(LIVE_BYTES)).map(|(s, out)| live(black_box(s), out).unwrap()).sum::<u32>()),
    ]);
    assert!(sets == other && answers.chunks(NUMBERS_PER_SHEET).all(|a| a[0] == 0));
    println!("| {name} | {} |", [t[0], t[1], t[0] / t[1]].map(|x| cell(Some(x))).join(" | "));
}

fn main() {
    let word = std::env::args().nth(1);
    let all = families();
    println!("| Looped sheet | Taken |\n|---|---|");
    for (name, sheet) in &all {
        println!("| {name} | {} |", taken(sheet));
    }
    if word.as_deref() == Some("families") {
        return;
    }
    let best = |of: &str| all.iter().filter(|f| f.0.starts_with(of)).max_by_key(|f| taken(&f.1)).unwrap().1.clone();
    let mut rng = Rng::new(7);
    let sheets = [
        ("straight", straight(&mut rng)),
        ("300 Labels", random::sheet(&mut rng, random::Shape { n: 1024, locals: 64, labels: 300, flags: true })),
        ("looped by Calls", best("Calls")),
        ("looped by Branches", best("nested")),
        ("1,024 Rets", of(vec![ret(); 1024])),
        ("labels searched longest", searched()),
    ];
    if word.as_deref() == Some("repeat") {
        let name = std::env::args().nth(2).unwrap_or_default();
        let s = sheets.iter().find(|x| x.0 == name).expect("no such sheet").1.bytes();
        for _ in 0..20_000 {
            let _ = black_box(live(&s, &mut [0; 16 * 1024]));
        }
        return;
    }
    let mut oracle = word.map(|path| start(&path).unwrap());
    println!("\n| Call | Proved | Masks | Ratio | Masks with a table | Ratio | Original | times faster |\n|---|---|---|---|---|---|---|---|");
    let (mut table, mut other) = (vec![0u16; 6 * 1024], vec![0u16; 6 * 1024]);
    let (mut a, mut b, mut c) = (vec![0u8; 16 * 1024], vec![0u8; 16 * 1024], vec![0u8; 16 * 1024]);
    for (name, sheet) in &sheets {
        let s = &sheet.bytes()[..];
        row(
            &format!("checks, {name}"),
            call(|| check(black_box(s))),
            Some(call(|| masks::check::<false>(black_box(s), black_box(&mut [[0; 2]; 1024])))),
            Some(call(|| masks::check::<true>(black_box(s), black_box(&mut [[0; 2]; 1024])))),
            None,
        );
        row(
            &format!("flow, {name}"),
            call(|| flow(black_box(s), &mut table)),
            Some(call(|| masks::flow(black_box(s), &mut other))),
            None,
            oracle.as_mut().map(|o| (o, FLOW, s)),
        );
        row(
            &format!("live, {name}, taken {}", taken(sheet)),
            call(|| live(black_box(s), &mut a)),
            Some(call(|| masks::live(black_box(s), &mut b))),
            Some(call(|| masks::live_with_table(black_box(s), &mut c))),
            oracle.as_mut().map(|o| (o, LIVE, s)),
        );
        assert!(table == other && a == b && a == c);
    }
    let (mut d, mut e) = (vec![0u8; MAX_BYTES], vec![0u8; MAX_BYTES]);
    let unlosing = Sheet { references: 0, ..sheets[1].1.clone() };
    for (name, sheet) in [("straight", &sheets[0].1), ("300 Labels, no references", &unlosing), ("lost references", &losing())] {
        let s = &sheet.bytes()[..];
        let length = rewrite(s, &mut d).unwrap();
        row(
            &format!("rewrite, {name}, {} instructions left", Sheet::of_bytes(&d[..length as usize]).code.len()),
            call(|| rewrite(black_box(s), &mut d)),
            Some(call(|| masks::rewrite(black_box(s), &mut e))),
            None,
            oracle.as_mut().map(|o| (o, REWRITE, s)),
        );
        assert!(d[..length as usize] == e[..length as usize]);
    }
    for (name, sheet) in [("straight", &numbered(&sheets[0].1)), ("few locals mentioned", &unmentioned()), ("all lists full", &full())] {
        let s = &sheet.bytes()[..];
        let length = renumber(s, &mut d).unwrap() as usize;
        row(
            &format!("renumber, {name}, {} of 64 locals left", Sheet::of_bytes(&d[..length]).locals),
            call(|| renumber(black_box(s), &mut d)),
            Some(call(|| masks::renumber(black_box(s), &mut e))),
            None,
            oracle.as_mut().map(|o| (o, ELIMINATE, s)),
        );
        assert!(d[..length] == e[..length]);
    }
    // the last Label that is named and the last that is not; a number that no Label has where there is none
    for (name, sheet) in [&sheets[0], &sheets[1], &sheets[5]] {
        let s = &sheet.bytes()[..];
        let look = |l: u32| sorzibelu::label(s, l).unwrap();
        let last = |is: fn(Lookup) -> bool| plain::labels(&sheet.code).into_iter().rev().find(|l| is(look(*l)));
        let asked = [last(|x| matches!(x, Lookup::Named(_))), last(|x| matches!(x, Lookup::Unnamed(_)))];
        for l in asked.into_iter().flatten().chain(asked.iter().all(Option::is_none).then_some(1)) {
            assert_eq!(masks::label(s, l), Ok(plain::packed(look(l))));
            row(
                &format!("label, {name}, {:?}", look(l)),
                call(|| sorzibelu::label(black_box(s), black_box(l))),
                Some(call(|| masks::label(black_box(s), black_box(l)))),
                None,
                None,
            );
        }
    }
    // graphs: 64 nodes, 246 triples, four from each node to the next ones
    let triples: Vec<u32> = (0..64u32).flat_map(|p| (1..5).filter(move |d| p + d < 64).flat_map(move |d| [p, p + d, 0])).collect();
    let line: Vec<u32> = (0..63u32).flat_map(|p| [p, p + 1, 0]).collect();
    let doubled: Vec<u32> = (0..40u32).flat_map(|p| [p, p + 1, 0, p, p + 1, 1]).collect();
    let graph = |triples, live| Graph { nodes: 64, live, triples };
    let (g, none) = (graph(&triples, 1 << 63), graph(&triples, 0));
    let (l, gone) = (graph(&line, 1 << 63), graph(&line, 0));
    let d = graph(&doubled, 0);
    let asked = |g: Graph, node: u32| [payload(g), node.to_le_bytes().to_vec()].concat();
    let (mut out, mut rest) = ([0u8; 64], [0u8; 64]);
    let mut graphs = |name: &str, call: Call, op: u8, bytes: Vec<u8>| row(name, call, None, None, oracle.as_mut().map(|o| (o, op, &bytes[..])));
    graphs("in use, 64 nodes, 246 triples", call(|| in_use(black_box(g), 0)), IN_USE, asked(g, 0));
    graphs("conditional, the same", call(|| conditional(black_box(g), 63)), CONDITIONAL, asked(g, 63));
    graphs("dying, the same, nothing live next", call(|| dying(black_box(g), black_box(none), &mut out)), DYING, [payload(g), payload(none)].concat());
    graphs("in use, a chain of 63 triples", call(|| in_use(black_box(l), 0)), IN_USE, asked(l, 0));
    graphs("conditional, the same", call(|| conditional(black_box(l), 0)), CONDITIONAL, asked(l, 0));
    graphs("dying, the same, nothing live next", call(|| dying(black_box(l), black_box(gone), &mut rest)), DYING, [payload(l), payload(gone)].concat());
    graphs("in use, a chain of 40 doubled triples", call(|| in_use(black_box(d), 0)), IN_USE, asked(d, 0));
    // the longest walks of dying nodes: a path of all nodes, and the triples shared out among its steps, from each child to the one parent
    for (nodes, count) in [(64u32, 256u32), (64, 128), (32, 256), (32, 128)] {
        let times = |p: u32| count / (nodes - 1) + u32::from(p < count % (nodes - 1));
        let triples: Vec<u32> = (0..nodes - 1).flat_map(|p| (0..times(p)).flat_map(move |e| [p, p + 1, e])).collect();
        let graph = |live| Graph { nodes, live, triples: &triples };
        let (here, none, mut out) = (graph(1 << (nodes - 1)), graph(0), [0u8; 64]);
        let name = format!("dying, a path of {nodes} nodes, {count} triples, nothing live next");
        row(&name, call(|| dying(black_box(here), black_box(none), &mut out)), None, None, None);
    }

    println!("\n| Class set of 16 sheets | One call | 16 calls of live | Ratio |\n|---|---|---|---|");
    let [straight, labels, looped, branches, ..] = [0, 1, 2, 3].map(|i| &sheets[i].1);
    class_row("straight", &[straight]);
    class_row("looped by Calls", &[looped]);
    class_row("straight, 300 Labels, looped by Calls and by Branches in turn", &[straight, labels, looped, branches]);
}
