//! Any text at all, damaged ones above all, is read or gets faults: nothing panics, and no fault is without its line.
use harness::{graphs, random, random::Rng, Bytes};
use sorzibelu::{
    graph,
    mark::{Kind, Question},
    text,
};

const PIECES: [&str; 40] = [
    "t0", "t63", "t64", "t999", "T0", "L1", "L65536", "#5", "#", "@7", "@", "<-", "call", "Not", "abort", "into", "on", "raw", "kind", "block", "at", "ff", "0:", "1", "-1",
    "0x3", "|", ",", "before", "after", "taken", "refused", "live", "flow", "dying", "é", "\u{feff}", "日本語", "//", "18446744073709551616",
];

/// A text with some words and letters changed.
fn damaged(rng: &mut Rng, text: &str) -> String {
    let mut words: Vec<String> = text.split_inclusive([' ', '\n']).map(String::from).collect();
    for _ in 0..1 + rng.below(4) {
        if words.is_empty() {
            break;
        }
        let at = rng.below(words.len());
        let piece = PIECES[rng.below(PIECES.len())];
        match rng.below(5) {
            0 => words[at] = format!("{piece} "),
            1 => words.insert(at, format!("{piece} ")),
            2 => words[at] = format!("{piece}{}", words[at]),
            3 => words[at] = format!("{piece}\n"),
            _ => drop(words.remove(at)),
        }
    }
    words.concat()
}

#[test]
fn sheets() {
    let mut rng = Rng::new(51);
    let mut faulty = 0;
    for i in 0..4_000 {
        let shape = random::Shape { n: 1 + rng.below(20), locals: rng.below(8), labels: 3, flags: true };
        let mut bytes = random::sheet(&mut rng, shape).bytes();
        if i % 2 == 0 {
            bytes = random::damage(&mut rng, &bytes);
        }
        let text = damaged(&mut rng, &text::list_raw(&bytes));
        let lines = text.lines().count();
        match text::read(&text) {
            Ok(written) => assert_eq!(text::read(&text::list_raw(&written.bytes)).unwrap().bytes, written.bytes, "{text}"),
            Err(faults) => {
                faulty += 1;
                assert!(faults.first.iter().all(|f| (1..=lines.max(1)).contains(&f.line) && !f.what.is_empty()), "{faults}\n{text}");
                assert!(text::assemble(&text).is_err());
            }
        }
    }
    assert!((500..3_990).contains(&faulty), "{faulty}");
}

#[test]
fn graphs_and_answers() {
    let mut rng = Rng::new(52);
    let m6 = Question::of_file(&std::fs::read(concat!(env!("CARGO_MANIFEST_DIR"), "/../../sheets/m6.txt")).unwrap()).unwrap();
    let page = std::fs::read_to_string(concat!(env!("CARGO_MANIFEST_DIR"), "/../../sheets/m6.page")).unwrap();
    for i in 0..4_000 {
        let (a, b) = graphs::pair(&mut rng, i % 2 == 0);
        let text = damaged(&mut rng, &graph::write_pair(&a, &b));
        match graph::read(&text) {
            Ok(written) => {
                let again = written.next().map_or_else(|| graph::write(written.this()), |next| graph::write_pair(written.this(), next));
                let again = graph::read(&again).unwrap();
                assert_eq!((again.this(), again.next()), (written.this(), written.next()));
            }
            Err(faults) => assert!(faults.first.iter().all(|f| f.line <= text.lines().count().max(1)), "{faults}\n{text}"),
        }
        let answer = damaged(&mut rng, &page);
        for kind in [None, Some(Kind::Live), Some(Kind::Flow), Some(Kind::Rewritten)] {
            for report in m6.marks(answer.as_bytes(), kind).into_iter().flatten() {
                assert_eq!(report.right + report.wrong + report.missing, report.asked, "{report}\n{answer}");
                assert!(report.all_right() == report.findings.is_empty(), "{report}\n{answer}");
            }
        }
        let list = damaged(&mut rng, &graph::dying_lines(&a, &b).unwrap());
        if let Ok(report) = Question::pair(&a, &b).mark(list.as_bytes(), Some(Kind::Dying)) {
            assert_eq!(report.right + report.wrong + report.missing, report.asked, "{report}\n{list}");
            assert!(report.all_right() == report.findings.is_empty(), "{report}\n{list}");
        }
    }
}
