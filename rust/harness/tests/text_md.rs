//! docs/TEXT.md against the code: its table of operations, and every example.
use sorzibelu::{
    check, graph,
    mark::{Kind, Question},
    renumbered, text,
};

const DOC: &str = include_str!("../../../docs/TEXT.md");

/// The blocks of a sort, without their fences.
fn blocks(sort: &str) -> Vec<&'static str> {
    let all: Vec<&str> = DOC.split(&format!("\n```{sort}\n")).skip(1).map(|b| &b[..b.find("\n```").unwrap() + 1]).collect();
    assert!(!all.is_empty(), "{sort}");
    all
}

/// The rows of the table whose head starts so, in cells.
fn table(head: &str) -> Vec<Vec<&'static str>> {
    let rows = DOC[DOC.find(head).unwrap()..].lines().skip(2).take_while(|l| l.starts_with('|'));
    rows.map(|l| l.trim_matches('|').split('|').map(str::trim).collect()).collect()
}

/// What stands in backquotes.
fn quoted(cell: &str) -> Vec<&str> {
    cell.split('`').skip(1).step_by(2).collect()
}

#[test]
fn operations() {
    let mut all: Vec<(usize, &str)> = table("| no. | operation").iter().flat_map(|r| r.chunks(2)).map(|c| (c[0].parse().unwrap(), c[1])).collect();
    all.sort_unstable();
    assert_eq!(all, text::OPERATIONS.into_iter().enumerate().collect::<Vec<_>>());
}

#[test]
fn instructions() {
    let mut kinds = vec![];
    for row in table("| kind | example") {
        let line = quoted(row[1])[0];
        let sheet = text::assemble(&format!("locals 4 user 4 parameters 0 references\n{line}\n")).unwrap_or_else(|f| panic!("{line}: {f}"));
        assert_eq!(text::instruction(&sheet.code[0]), line);
        assert_eq!(row[0].split(' ').next().unwrap().parse(), Ok(sheet.code[0].kind), "{line}");
        kinds.push(sheet.code[0].kind);
        let names = quoted(row[2]);
        let known: &[&str] = match sheet.code[0].kind {
            0 => &text::ASSIGNS,
            3 => &text::CONSTANTS,
            11 => &text::PROPS,
            _ => continue,
        };
        assert_eq!(names, known);
    }
    kinds.dedup();
    assert_eq!(kinds, (0..12).collect::<Vec<u8>>());
}

#[test]
fn sheets_and_graphs() {
    for b in blocks("sheet") {
        check(&text::read(b).unwrap().bytes).unwrap();
    }
    for b in blocks("raw") {
        let bytes = text::read(b).unwrap().bytes;
        assert!(check(&bytes).is_err());
        assert_eq!(text::read(&text::list_raw(&bytes)).unwrap().bytes, bytes);
    }
    for b in blocks("graph") {
        assert!(graph::read(b).unwrap().next().is_none());
        graph::page(graph::read(b).unwrap().this()).unwrap();
    }
    for b in blocks("pair") {
        assert!(graph::read(b).unwrap().next().is_some());
    }
}

#[test]
fn refusals() {
    let rows = table("| refusal | text behind `");
    for row in &rows {
        let lines = quoted(row[1]);
        let (tail, code) = if lines[0].starts_with(' ') { (lines[0], &lines[1..]) } else { ("", &lines[..]) };
        let text = format!("locals 1 user 1 parameters 0 references{tail}\n{}\n", code.join("\n"));
        let bytes = text::read(&text).unwrap().bytes;
        // 15 is renumber's alone
        let refused = check(&bytes).and_then(|()| renumbered(&bytes).map(drop)).unwrap_err();
        assert_eq!(check(&bytes).is_ok(), row[0].ends_with(", of renumber alone"));
        assert_eq!(Some(&refused.number().to_string()[..]), row[0].split(',').next(), "{text}");
    }
    assert_eq!(rows.len(), 10);
}

#[test]
fn answers() {
    let question = |name: &str| Question::of_file(&std::fs::read(format!("{}/../../sheets/{name}.txt", env!("CARGO_MANIFEST_DIR"))).unwrap()).unwrap();
    let (m6, m7) = (question("m6"), question("m7"));
    let [sets, taken] = blocks("live")[..] else { panic!() };
    for line in sets.lines() {
        let report = m6.mark(format!("{line}\n{taken}").as_bytes(), None).unwrap();
        assert_eq!((report.right, report.missing), (2, 5), "{line}: {report}");
    }
    for (sort, kind) in [("flow", Kind::Flow), ("rewritten", Kind::Rewritten)] {
        assert!(m6.mark(blocks(sort)[0].as_bytes(), Some(kind)).unwrap().all_right());
    }
    assert!(m7.mark(blocks("dying")[0].as_bytes(), None).unwrap().all_right());
    let seven = text::read("locals 1 user 1 parameters 0 references\nnop\njump L1\n").unwrap();
    assert!(Question::sheet(&seven.bytes).mark(blocks("refused")[0].as_bytes(), None).unwrap().all_right());
}
