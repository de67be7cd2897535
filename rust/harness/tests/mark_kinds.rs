//! Marks for flow tables, rewritten code, dying lists and refusals, and answers that are none.
use harness::{graphs, random, random::Rng, Bytes};
use sorzibelu::{
    dying_nodes, graph,
    graph::Owned,
    mark::{Kind, Question, Report, Verdict},
    rewritten,
    sheet::*,
    text,
};
use std::time::{Duration, Instant};

fn question(name: &str) -> Question {
    Question::of_file(&std::fs::read(format!("{}/../../sheets/{name}.txt", env!("CARGO_MANIFEST_DIR"))).unwrap()).unwrap()
}

fn mark(question: &Question, answer: &str) -> Report {
    let report = question.mark(answer.as_bytes(), None).unwrap();
    assert_eq!(report.right + report.wrong + report.missing, report.asked, "{report}");
    report
}

fn said(report: &Report) -> Vec<String> {
    report.findings.iter().map(|f| f.what.clone()).collect()
}

#[test]
fn words_of_flow_marks() {
    let m2 = question("m2");
    for (answer, says) in [
        ("0 to 1: key 2, leads to 2 3\n2 to 3: key 3, leads to 1\nblocks 2", &[][..]),
        ("blocks 2\n2 3 3 1 0 0\n0 1 2 2 3", &[]),
        ("0 1 2 3 2\n2 3 3 1\nblocks 2", &["block at 0, leads to: the order of 3 2 should be 2 3"]),
        ("0 1 2 2 1\n2 3 3 1\nblocks 2", &["block at 0, leads to: 3 is missing; 1 should not be there"]),
        ("0 1 2 2\n2 3 3 1\nblocks 2", &["block at 0, leads to: 3 is missing"]),
        ("0 2 2 2 3\n2 3 3\nblocks 3", &["block at 0, upper: 2 should be 1", "block at 2, leads to: 1 is missing", "blocks: 3 should be 2"]),
        ("0 1 2 2 3\n1 1 3 1", &["line 3: no block starts at 1", "2 to 3: key 3, leads to 1", "blocks: 2"]),
        ("0 1 2 2 3\n0 1 2 2 3\n2 3 3 1\nblocks 2\nblocks 2", &["line 3: the block that starts at 0 was answered in line 2, which counts", "line 6: blocks was answered in line 5, which counts"]),
        ("0 1 2 2 3\n2 3 3 1\nblocks 2\nrefused 1 0", &["line 5: the sheet is not refused"]),
        // a third successor is read, and is one too many
        ("0 1 2 2 3 1\n2 3 3 1\nblocks 2", &["block at 0, leads to: 1 should not be there"]),
        ("0 1 2 2 3 0\n2 3 3 1 0 0\nblocks 2", &[]),
        ("0 1\n2 3 3 one\nblocks two", &[
            "line 2: 2 numbers where lower, upper, key and up to two successors should stand",
            "line 3: 'one': a line is 'LOWER to UPPER: key KEY, leads to KEYS' or 'blocks COUNT'",
            "line 4: 'two' is no number",
            "0 to 1: key 2, leads to 2 3",
            "2 to 3: key 3, leads to 1",
            "blocks: 2",
        ]),
    ] {
        let report = mark(&m2, &format!("flow\n{answer}"));
        assert_eq!(said(&report), says, "{answer}");
        assert_eq!(report.all_right(), says.is_empty());
    }
    // a block that takes its key before its successors: the keys are the slip, the successors follow
    let m6 = mark(&question("m6"), "flow\n0 0 2 3 4\n1 3 3 1\n4 5 4 1\nblocks 3");
    assert_eq!(said(&m6), ["block at 0, key: 2 should be 4", "block at 0, leads to: 3 4 should be 2 3", "block at 1, key: 3 should be 2", "block at 4, key: 4 should be 3"]);
    assert_eq!(m6.findings[1].verdict, Verdict::Follows);
    assert_eq!(m6.remark, "each block takes its key before its successors in this answer: the successors come first");
    let m2 = mark(&m2, "flow\n0 1 2 2 4\n2 3 4 1\nblocks 2");
    assert_eq!((m2.wrong, m2.follows, &m2.remark[..]), (2, 1, ""), "{m2}");
    // every Label starts a block: another misreading, and every reason in words
    let sheet = "locals 1 user 1 parameters 0 references\nlabel L1\nnop\nlabel L2\ncall Not abort L3 into t0\nnop\nlabel L3\njump L4\nlabel L4\ncall Stop\n";
    let question = Question::of_file(sheet.as_bytes()).unwrap();
    let report = mark(&question, "flow\n0 1 2 3\n2 3 3 2\n1 1 1 1\n5 8 4 1\nblocks 3");
    let told: Vec<(&str, &str)> = report.findings.iter().map(|f| (&f.what[..], &f.why[..])).collect();
    assert_eq!(
        told[..4],
        [
            ("line 3: no block starts at 2", "no block starts at 2: no Branch, Jump or Call with an abort action names label L2"),
            ("line 4: no block starts at 1", "no block starts at 1: the instruction at 0 ends none"),
            ("block at 0, upper: 1 should be 3", "no block starts at 2: no Branch, Jump or Call with an abort action names label L2"),
            ("block at 0, key: 2 should be 4", ""),
        ],
        "{report}"
    );
    let why: Vec<&str> = told.iter().map(|(_, why)| *why).collect();
    for words in ["a block starts at 4: the Call with an abort action at 3 ends one", "a block starts at 7: label L4 is named at 6", "it leads to the block at 4 and to the block at 5"] {
        assert!(why.contains(&words), "{words}: {report}");
    }
}

/// The labels that nothing names may stand in an answer, and are wrong where they are others.
#[test]
fn labels_in_flow_marks() {
    for (sheet, line, says) in [
        ("unnamed", "", &[][..]),
        ("unnamed", "never named L5", &[]),
        ("unnamed", "Never named: l5,", &[]),
        ("unnamed", "never named", &["line 5: never named: L5 should stand here"]),
        ("unnamed", "never named L5 L1", &["line 5: never named: L5 should stand here"]),
        ("unnamed", "never named 5", &["line 5: '5' is no label such as L1"]),
        ("unnamed", "never named L65541", &["line 5: 'L65541' is no label such as L1"]),
        ("unnamed", "never named L5\nnever named L1", &["line 6: the labels that nothing names were answered in line 5, which counts"]),
        ("m2", "never named L2", &["line 5: never named: no label should stand here"]),
        ("m2", "never named", &[]),
    ] {
        let rows = if sheet == "m2" { "0 1 2 2 3\n2 3 3 1\nblocks 2" } else { "0 2 2 2 3\n3 4 3 1\nblocks 2" };
        let report = mark(&question(sheet), &format!("flow\n{rows}\n{line}"));
        assert_eq!(said(&report), says, "{line}");
        assert_eq!((report.all_right(), report.right), (says.is_empty(), 3));
    }
}

#[test]
fn words_of_rewritten_marks() {
    let m6 = question("m6");
    let right = "0: branch L1 L3 on t0\n1: label L1 @1\n2: t2 <- call ReadRef t1 @2\n3: ret t2 @3\n4: label L2 @4\n5: ret @5\n6: label L3 @6\n7: call Destroy t1 @7\n8: jump L2 @8\n";
    let head = "locals 3 user 3 parameters 0 references t1\n";
    for (answer, says) in [
        (right.to_string(), &[][..]),
        (head.to_string() + right, &[]),
        (format!("# mine\n{head}// so\n{right}"), &[]),
        (head.replace("user 3", "user 2").replace("t1", "") + right, &["heading, user: 2 should be 3", "heading, references: - should be t1"]),
        (head.to_string() + head + right, &["line 3: a second heading"]),
        (right.replace("5: ret @5\n", ""), &["5: ret @5"]),
        (right.replace("5: ret @5\n", "nop\nret @5\n"), &["line 7: 'nop' should not be there"]),
        (right.replace("ret t2", "ret t1"), &["3: 'ret t1 @3' should be 'ret t2 @3'"]),
        (right.replace("ret t2", "rett2"), &["line 5: 'rett2' is no instruction", "3: ret t2 @3"]),
        (right.replace("8:", "7:"), &["line 10: 7 was answered in line 9, which counts", "8: jump L2 @8"]),
        (right.replace("L3", "L4"), &["0: 'branch L1 L4 on t0' should be 'branch L1 L3 on t0'", "6: 'label L4 @6' should be 'label L3 @6'"]),
        (
            right.replace("@6", "@0").replace("@7", "@1").replace("@8", "@2"),
            &["6: 'label L3' should be 'label L3 @6'", "7: 'call Destroy t1 @1' should be 'call Destroy t1 @7'", "8: 'jump L2 @2' should be 'jump L2 @8'"],
        ),
        (format!("{right}refused 10 0\n"), &["line 11: the rewriting is not refused"]),
        (format!("{right}3:\n"), &["line 11: no instruction behind the offset"]),
    ] {
        let report = mark(&m6, &format!("rewritten\n{answer}"));
        assert_eq!(said(&report), says, "{answer}");
        assert_eq!(report.all_right(), says.is_empty());
        // the first is the slip, the rest follow
        if answer.contains("L4") || answer.contains("label L3\n") {
            assert!(report.findings[0].verdict == Verdict::Wrong && report.findings[1..].iter().all(|f| f.verdict == Verdict::Follows), "{report}");
        }
    }
}

#[test]
fn reasons_of_rewriting() {
    for (m, answer, what, why) in [
        ("m4", "t1 <- copy t0\nret", "line 2: 't1 <- copy t0' should not be there", "offset 0 of the sheet, 't1 <- copy t0': dropped, since t1 is not in after"),
        (
            "m5",
            "t0 <- load Bool\nt2 <- call Not t0\nt2 <- copy t1\nret t2",
            "line 4: 't2 <- copy t1' should not be there",
            "offset 2 of the sheet, 't2 <- copy t1': gone, since the Call in front of it takes its destination",
        ),
        (
            "m5",
            "t0 <- load Bool\nt1 <- call Not t0\nret t2",
            "1: 't1 <- call Not t0' should be 't2 <- call Not t0'",
            "destinations: t1 should be t2. offset 1 of the sheet, 't1 <- call Not t0': the Call takes the destination of the Assign behind it, since t1 is not in after of that",
        ),
        (
            "m6",
            "branch L1 L2 on t0",
            "0: 'branch L1 L2 on t0' should be 'branch L1 L3 on t0'",
            "labels: L1 L2 should be L1 L3. offset 0 of the sheet, 'branch L1 L2 on t0': the else edge to L2 loses t1, in after here and not in before at 4: it goes to the new label L3",
        ),
        ("m6", "branch L1 L3 on t0", "7: call Destroy t1 @7", "the new block of the else edge of the Branch at 0, which loses t1"),
    ] {
        let report = mark(&question(m), &format!("rewritten\n{answer}"));
        let found = report.findings.iter().find(|f| f.what == what).unwrap_or_else(|| panic!("{report}"));
        assert_eq!(found.why, why, "{report}");
    }
    // the reasons come to the code of the proved call, whatever the sheet
    let mut rng = Rng::new(43);
    let mut met = 0;
    for _ in 0..400 {
        let shape = random::shape(&mut rng);
        let sheet = if rng.chance(2) { random::lossy(&mut rng) } else { random::sheet(&mut rng, shape) };
        let Ok(new) = rewritten(&sheet.bytes()) else { continue };
        let new = Sheet::try_from(&new[..]).unwrap();
        let report = mark(&Question::sheet(&sheet.bytes()), "rewritten\n");
        let changed = |r: &Instruction| !sheet.code.contains(r);
        for (r, f) in new.code.iter().zip(&report.findings) {
            assert!(!changed(r) || !f.why.is_empty(), "{}: {report}", text::instruction(r));
            met += usize::from(changed(r));
        }
    }
    assert!(met > 500, "{met}");
}

#[test]
fn one_line_more_or_less() {
    let mut rng = Rng::new(41);
    for _ in 0..150 {
        let s = random::lossy(&mut rng).bytes();
        let Ok(new) = rewritten(&s) else { continue };
        let (question, right) = (Question::sheet(&s), Sheet::try_from(&new[..]).unwrap());
        let answer = |code: &[Instruction]| mark(&question, &code.iter().fold("rewritten\n".to_string(), |t, r| t + &text::instruction(r) + "\n"));
        let n = right.code.len();
        let at = rng.below(n);
        let mut code = right.code.clone();
        code.remove(at);
        let report = answer(&code);
        assert_eq!((report.right, report.missing, report.extra), (n - 1, 1, 0), "{report}");
        code.insert(at, Instruction { attr: right.code[at].attr ^ 1, ..right.code[at].clone() });
        let report = answer(&code);
        assert_eq!((report.right, report.wrong, report.missing, report.extra), (n - 1, 1, 0, 0), "{report}");
        code[at] = right.code[at].clone();
        code.insert(at, Instruction { payload: 77, ..Instruction::new(SAVE_MEM) });
        let report = answer(&code);
        assert_eq!((report.right, report.missing, report.extra), (n, 0, 1), "{report}");
    }
}

#[test]
fn words_of_dying_marks() {
    let (m7, m8) = (question("m7"), question("m8"));
    for (question, answer, says) in [
        (&m7, "2 1 0", &[][..]),
        (&m7, "dying\n2\n1, 0 # all", &[]),
        (&m7, "2: live here, in the next graph neither live nor in use\n1: parent of 2\n0: parent of 1\n", &[]),
        (&m8, "-", &[]),
        (&m8, "none", &[]),
        (&m8, "", &["none: no node dies"]),
        (&m8, "1", &["1 should not be there"]),
        (&m8, "- 1", &["1 should not be there"]),
        (&m7, "2 0 1", &["1 dies, but stands at a wrong place: it comes behind 2"]),
        (&m7, "1 2 0", &["2 dies, but stands at a wrong place: it comes first"]),
        (&m7, "2 1 0 1 3", &["line 1: 1 was listed before", "line 1: 3 is no node of the graph"]),
        (&m7, "2 x\n1 0", &["line 1: 'x' is no node", "2 is missing"]),
        (&m7, "-", &["none: some nodes die", "2 is missing", "1 is missing", "0 is missing"]),
        (&m7, "2 1 0\nrefused 12 0", &["line 2: the graphs are not refused"]),
    ] {
        let report = mark(question, answer);
        assert_eq!(said(&report), says, "{answer}");
        assert_eq!(report.all_right(), says.is_empty(), "{answer}");
    }
    assert_eq!(mark(&m7, "2").follows, 1);
    // 2 is in use by 3 in the next graph, so that its parents 1 and 0 do not die either
    let (chain, kept) = ([[0, 1, 0], [1, 2, 0]], [[2, 3, 0]]);
    let question = Question::pair(&Owned::new(4, &[2], &chain), &Owned::new(4, &[3], &kept));
    let report = mark(&question, "2 1 0");
    let told: Vec<(&str, &str)> = report.findings.iter().map(|f| (&f.what[..], &f.why[..])).collect();
    assert_eq!(
        told,
        [
            ("2 should not be there", "live here, in use in the next graph: 2 -> 3, and 3 is live"),
            ("1 should not be there", "not live here, and no child of it dies; it follows from 2, which should not be there"),
            ("0 should not be there", "not live here, and no child of it dies; it follows from 1, which should not be there"),
        ]
    );
    assert_eq!((report.wrong, report.extra, report.follows), (1, 3, 2));
    assert_eq!(mark(&m7, "-").findings[0].verdict, Verdict::Wrong);
    assert_eq!(mark(&m8, "1").findings[0].why, "live here, in use in the next graph: 1 -> 2, and 2 is live");
    let mut rng = Rng::new(42);
    for i in 0..400 {
        let (a, b) = graphs::pair(&mut rng, i % 2 == 0);
        let listed: Vec<String> = dying_nodes(a.graph(), b.graph()).unwrap().iter().map(u8::to_string).collect();
        let question = Question::pair(&a, &b);
        let answer = if listed.is_empty() { "-".into() } else { listed.join(" ") };
        assert!(mark(&question, &answer).all_right());
        assert!(mark(&question, &graph::dying_lines(&a, &b).unwrap()).all_right());
        if listed.len() > 1 {
            let mut fewer = listed.clone();
            fewer.remove(rng.below(listed.len()));
            let report = mark(&question, &fewer.join(","));
            assert_eq!((report.right, report.missing, report.wrong), (listed.len() - 1, 1, 0));
            let mut turned = listed.clone();
            turned.swap(0, listed.len() - 1);
            let report = mark(&question, &turned.join("\n"));
            assert!(report.wrong > 0 && report.missing == 0 && !report.all_right());
        }
    }
}

#[test]
fn refusals() {
    let seven = text::read("locals 1 user 1 parameters 0 references\nnop\njump L1\n").unwrap();
    let seven = Question::sheet(&seven.bytes);
    for kind in [Kind::Live, Kind::Flow, Kind::Rewritten] {
        for (answer, says) in [
            ("refused 7 1", &[][..]),
            ("Refused: 7 1 # so", &[]),
            ("refused 7 0", &["refused 7 0 should be refused 7 1"]),
            ("", &["refused 7 1"]),
            ("refused 7 1\nrefused 7 1", &["line 2: a second refusal"]),
            ("refused 7\n0 0 0\n", &["line 1: 'refused' has a number and a place behind it", "line 2: nothing but the refusal is asked", "refused 7 1"]),
        ] {
            let report = seven.mark(answer.as_bytes(), Some(kind)).unwrap();
            assert_eq!(said(&report), says, "{answer}");
            assert_eq!(report.all_right(), says.is_empty());
        }
    }
    for kind in [Kind::Live, Kind::Flow, Kind::Rewritten] {
        let marked = |answer: &str| question("stop").mark(answer.as_bytes(), Some(kind)).unwrap();
        assert!(marked("refused 18 3").all_right());
        let wrong = marked("refused 18 1");
        assert_eq!(said(&wrong), ["refused 18 1 should be refused 18 3"]);
        assert_eq!(wrong.findings[0].why, "offset 3: the Stop has the abort action 'abort L1 into t1' and should have none");
    }
    let twelve = Question::pair(&Owned::new(3, &[], &[]), &Owned { nodes: 65, ..Default::default() });
    assert!(mark(&twelve, "refused 12 1").all_right());
    let ten = "locals 1 user 0 parameters 0 references t0\nlabel L1\nbranch L1 L65535 on t0\nlabel L65535\nret\n";
    let ten = Question::of_file(ten.as_bytes()).unwrap();
    assert!(mark(&ten, "rewritten\nrefused 10 0").all_right());
    assert!(!mark(&ten, "refused 10 0").all_right());
}

#[test]
fn answers_that_are_none() {
    let (m2, m7) = (question("m2"), question("m7"));
    for (question, answer, kind, says) in [
        (&m2, &b"dying\n1"[..], None, "dying is asked of a pair of graphs, and this is a sheet"),
        (&m7, b"flow\n1", None, "flow is asked of a sheet, and this is a pair of graphs"),
        (&m2, b"flow\n1", Some(Kind::Live), "an answer of kind flow, where live is asked"),
        (&m2, b"0 3 3\0", None, "not a text"),
        (&m2, b"\xff\xfe0\x00", None, "a text in UTF-16: it has to be saved as UTF-8"),
        (&m2, &[0; 100], Some(Kind::Rewritten), "not a text, and as a sheet refused 1 0: the length is no multiple of 512, below 1,024 or above 35,840"),
    ] {
        assert_eq!(question.mark(answer, kind).unwrap_err(), says);
    }
    // parts: each kind under its name, those of another question left out
    let text = b"\n0 3 3 # first of all\nFlow:\nblocks 2\ndying\n2\nlive\n1 3 3\nflow\n2 3 3 1\ncode\nanything\nlive\n2 2 2\n";
    let reports = m2.marks(text, None).unwrap();
    let told: Vec<_> = reports.iter().map(|r| (r.kind, r.right, r.unread)).collect();
    assert_eq!(told, [(Kind::Live, 3, 0), (Kind::Flow, 2, 0)]);
    assert_eq!(m7.marks(text, None).unwrap()[0].right, 1);
    let rewritten = m2.marks(b"rewritten label L1 #\nbranch L1 L2 on t0\nlabel L2 # here\nret t1", None).unwrap();
    assert!(rewritten[0].all_right());
    // a letter that is no UTF-8 costs its line
    let report = m2.mark(b"0 3 3\n1 3 3 \xff\n2 2 2\n3 2 0 # \xff\ntaken 7\n", None).unwrap();
    assert_eq!((report.right, report.missing, report.unread), (4, 1, 1));
    for (file, says) in [("\n", "line 1: no heading"), ("nodes 1\n", "one graph"), ("this\nnodes 1\n", "no 'next'"), ("hop\n", "no heading")] {
        assert!(Question::of_file(file.as_bytes()).is_err_and(|e| e.contains(says)), "{file}");
    }
    for bytes in [&[200, 201][..], &[], b"\x7fELF\0"] {
        assert!(mark(&Question::of_file(bytes).unwrap_or_else(|e| panic!("{e}")), "refused 1 0").all_right());
    }
    for (bytes, says) in [(&b"\xff\xfel\0"[..], "UTF-16"), (b"locals 1 user 1 parameters 0 references\nret // f\xfcr\n", "line 2: a letter that is not UTF-8")] {
        assert!(Question::of_file(bytes).is_err_and(|e| e.contains(says)));
    }
}

#[test]
fn large_answers() {
    let (m2, m7) = (question("m2"), question("m7"));
    let answers = [
        "x".repeat(20 << 20),
        "t0 ".repeat(1 << 20),
        "0 t0,".to_string() + &"t0,".repeat(1 << 20),
        "0 ".to_string() + &"0".repeat(4 << 20) + " 0",
        "0 3 3\n".repeat(100_000),
        "nop\n".repeat(100_000),
        (0..100_000).map(|i| format!("{i}: nop\n")).collect(),
        "refused 1 1\n".repeat(100_000),
        "\n".repeat(1 << 20),
    ];
    for answer in &answers {
        for (question, kind) in [(&m2, Kind::Live), (&m2, Kind::Flow), (&m2, Kind::Rewritten), (&m7, Kind::Dying)] {
            let start = Instant::now();
            let report = question.mark(answer.as_bytes(), Some(kind)).unwrap();
            assert!(!report.all_right() && report.to_string().len() < 400_000, "{}", report.to_string().len());
            assert!(start.elapsed() < Duration::from_secs(10), "{kind} {:?} {}", start.elapsed(), &answer[..10]);
        }
    }
    let report = m2.mark("0 3 3\n".repeat(2_000_000).as_bytes(), None).unwrap();
    assert_eq!((report.right, report.missing, report.twice, report.findings.len()), (1, 4, 1_999_999, 24));
}
