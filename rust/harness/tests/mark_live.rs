//! Marks for live sets: the rules against the proved sets, right answers of a sheet in every form, slips told apart from what follows from them.
use harness::{plain, random, random::Rng};
use sorzibelu::{
    live_sets,
    mark::{rules::*, Kind, Question, Report, Verdict},
    rewritten,
    sheet::*,
    text,
};

fn sheet(name: &str) -> Vec<u8> {
    std::fs::read(format!("{}/../../sheets/{name}.sheet", env!("CARGO_MANIFEST_DIR"))).unwrap()
}

fn bytes(sheet: &Sheet) -> Vec<u8> {
    Vec::try_from(sheet).unwrap()
}

fn sets(sheet: &[u8]) -> Vec<[u64; 2]> {
    live_sets(sheet).unwrap().sets.iter().map(|s| [s.before, s.after]).collect()
}

fn random_sheet(rng: &mut Rng) -> Sheet {
    let shape = random::shape(rng);
    if rng.chance(3) { random::lossy(rng) } else { random::sheet(rng, shape) }
}

fn mark(question: &Question, answer: &str) -> Report {
    question.mark(answer.as_bytes(), None).unwrap()
}

fn said(report: &Report) -> Vec<String> {
    report.findings.iter().map(|f| f.what.clone()).collect()
}

/// An answer of live sets in livelist's form.
fn listed(sets: &[[u64; 2]], taken: u32) -> String {
    let lines: String = sets.iter().enumerate().map(|(k, [b, a])| format!("{k} {b:016x} {a:016x}\n")).collect();
    lines + &format!("taken {taken}\n")
}

#[test]
fn the_proved_sets_obey() {
    let mut rng = Rng::new(31);
    for _ in 0..1_500 {
        let sheet = random_sheet(&mut rng);
        let rules = Rules::new(&sheet);
        let mut sets = sets(&bytes(&sheet));
        assert_eq!(rules.breaches(&sets), []);
        // any other set, with all sets beside it as they were, breaks its own rule
        let (k, side, bit) = (rng.below(sets.len()), rng.below(2), 1 << rng.below(64));
        sets[k][side] ^= bit;
        let broken = rules.breaches(&sets);
        let side = [Side::Before, Side::After][side];
        assert!(broken.contains(&Breach { offset: k, side, gives: sets[k][side as usize] ^ bit }), "{broken:?}");
        // and the rules are those of the plain reading
        for (k, r) in sheet.code.iter().enumerate() {
            let after = rng.number();
            assert_eq!(rules.before(k, after), plain::execute(r, after));
        }
    }
}

fn shuffled(rng: &mut Rng, text: &str) -> String {
    let mut lines: Vec<&str> = text.lines().collect();
    for i in (1..lines.len()).rev() {
        lines.swap(i, rng.below(i + 1));
    }
    lines.join("\n")
}

#[test]
fn right_answers_in_every_form() {
    let mut rng = Rng::new(32);
    let names = |m: u64, gap: &str| match m {
        0 => "-".into(),
        _ => (0..64).filter(|i| m >> i & 1 == 1).map(|i| format!("t{i}")).collect::<Vec<_>>().join(gap),
    };
    for _ in 0..300 {
        let sheet = random_sheet(&mut rng);
        let s = bytes(&sheet);
        let question = Question::sheet(&s);
        let live = live_sets(&s).unwrap();
        let (sets, taken) = (sets(&s), live.taken);
        let mut text = String::new();
        for (k, [b, a]) in sets.iter().enumerate() {
            text += &match rng.below(8) {
                0 => format!("{k} {b:016x} {a:016x}"),
                1 => format!("{k}: 0x{b:X} 0X{a:x}"),
                2 => format!("{k} {b:030x} {a:x}  # a comment"),
                3 => format!("{k} {} {}", names(*b, ","), names(*a, ",")),
                4 => format!("  {k}: {} | {}", names(*b, " "), names(*a, " ")),
                5 => format!("{k}: before {b:016x} {}, after {a:016x} {}", names(*b, " ").replace('-', ""), names(*a, ", ").replace('-', "")),
                6 => format!("{k} after {} before {}", names(*a, " ").to_uppercase(), names(*b, " ")),
                _ => format!("{k} before {{{}}}\n{k} after: {}", names(*b, ", ").replace('-', ""), names(*a, " ")),
            };
            text += if rng.chance(4) { "\r\n\n// \n" } else { "\n" };
        }
        text += &format!("Taken: {taken}\n");
        let text = ["", "live\n", "\u{feff}# mine\nLive:\n"][rng.below(3)].to_string() + &shuffled(&mut rng, &text);
        let report = mark(&question, &text);
        assert!(report.all_right() && report.findings.is_empty(), "{report}\n{text}");

        // the page's own sections
        let page = harness::page::page(&s);
        let part = |from: &str| page.split_once(&format!("\n\n{from}\n")).unwrap().1.split("\n\n").next().unwrap().to_string();
        for (kind, from) in [(Kind::Live, "live"), (Kind::Flow, "flow"), (Kind::Rewritten, "rewritten")] {
            let text = if kind == Kind::Rewritten { part(from) } else { shuffled(&mut rng, &part(from)) };
            for (text, asked) in [(format!("{from}\n{text}"), None), (text.clone(), Some(kind)), (format!("{from}: {text}"), Some(kind))] {
                let report = question.mark(text.as_bytes(), asked).unwrap();
                assert!(report.all_right() && report.kind == kind, "{report}\n{text}");
            }
        }
        // and the whole page, with or without another part
        for text in [page.clone(), format!("{page}\ndying\n1 2 3\n")] {
            let reports = question.marks(text.as_bytes(), None).unwrap();
            assert_eq!(reports.iter().map(|r| r.kind).collect::<Vec<_>>(), [Kind::Flow, Kind::Live, Kind::Rewritten]);
            assert!(reports.iter().all(|r| r.all_right()));
            assert_eq!(question.marks(text.as_bytes(), Some(Kind::Live)).unwrap().len(), 1);
        }
        let numbers: String = plain::flow(&sheet.code).chunks(6).map(|r| r.iter().map(u16::to_string).collect::<Vec<_>>().join(" ") + "\n").collect();
        assert_eq!(mark(&question, &format!("flow\n{numbers}")).missing, 1, "only 'blocks'");
        if let Ok(new) = rewritten(&s) {
            assert!(question.mark(&new, Some(Kind::Rewritten)).unwrap().all_right());
            let new = Sheet::try_from(&new[..]).unwrap();
            let code: String = new.code.iter().map(|r| text::instruction(r) + "\n").collect();
            assert!(mark(&question, &format!("rewritten\n{code}")).all_right());
            let numbered: String = new.code.iter().enumerate().map(|(k, r)| format!("{k}: {}\n", text::instruction(r))).collect();
            assert!(mark(&question, &format!("rewritten\n{}", shuffled(&mut rng, &numbered))).all_right());
        }
    }
}

/// The least sets that obey every rule but one, which puts a local in, or leaves it out.
fn slipped(rules: &Rules, k: usize, side: Side, bit: u64, out: bool) -> Vec<[u64; 2]> {
    let mut sets = vec![[0; 2]; rules.len()];
    let slip = |set: u64, here: bool| match (here, out) {
        (false, _) => set,
        (true, true) => set & !bit,
        (true, false) => set | bit,
    };
    loop {
        let old = sets.clone();
        for i in (0..rules.len()).rev() {
            sets[i][1] = slip(rules.after(i, &sets), (i, side) == (k, Side::After));
            sets[i][0] = slip(rules.before(i, sets[i][1]), (i, side) == (k, Side::Before));
        }
        if sets == old {
            return sets;
        }
    }
}

#[test]
fn one_slip_is_one_slip() {
    let mut rng = Rng::new(33);
    let mut followed = 0;
    for _ in 0..800 {
        let sheet = random_sheet(&mut rng);
        let s = bytes(&sheet);
        let (rules, right) = (Rules::new(&sheet), sets(&s));
        let (k, side) = (rng.below(right.len()), [Side::Before, Side::After][rng.below(2)]);
        let bit = 1u64 << rng.below(64);
        let missing = right[k][side as usize] & bit != 0;
        let given = slipped(&rules, k, side, bit, missing);
        // a local that comes round a loop to the slip obeys the rules
        if rules.breaches(&given).is_empty() {
            continue;
        }
        let report = mark(&Question::sheet(&s), &listed(&given, live_sets(&s).unwrap().taken));
        let wrong: Vec<&str> = report.findings.iter().filter(|f| f.verdict == Verdict::Wrong).map(|f| &f.what[..]).collect();
        let (name, local) = (if side == Side::Before { "before" } else { "after" }, bit.trailing_zeros());
        let words = if missing { format!("{k} {name}: t{local} is missing") } else { format!("{k} {name}: t{local} should not be there") };
        assert_eq!(wrong, [words], "{report}\n{}", text::list(&sheet));
        assert!(report.findings.iter().all(|f| matches!(f.verdict, Verdict::Wrong | Verdict::Follows)), "{report}");
        assert_eq!(report.follows + 1, report.wrong, "{report}");
        followed += report.follows;
    }
    assert!(followed > 1_000, "{followed}");
}

#[test]
fn sets_that_obey_and_are_not_least() {
    let mut rng = Rng::new(34);
    let mut met = 0;
    for _ in 0..600 {
        let sheet = random_sheet(&mut rng);
        let s = bytes(&sheet);
        let (rules, right) = (Rules::new(&sheet), sets(&s));
        // from all locals down to the greatest sets that obey
        let mut given = vec![[u64::MAX; 2]; rules.len()];
        while !rules.breaches(&given).is_empty() {
            for i in (0..rules.len()).rev() {
                given[i][1] = rules.after(i, &given);
                given[i][0] = rules.before(i, given[i][1]);
            }
        }
        let report = mark(&Question::sheet(&s), &listed(&given, live_sets(&s).unwrap().taken));
        if given == right {
            assert!(report.all_right());
            continue;
        }
        met += 1;
        assert!(report.findings.iter().all(|f| f.verdict == Verdict::NotLeast && f.what.ends_with("should not be there")), "{report}");
        assert_eq!((report.wrong, report.missing), (report.not_least, 0));
        assert!(report.remark.contains("not the least"));
    }
    assert!(met > 100, "{met}");
}

#[test]
fn words_of_live_marks() {
    let m2 = Question::sheet(&sheet("m2"));
    let report = mark(&m2, "0 t0,t1 t0\n1 t0 | t0\n2: before -, after t1\n3 before t1 after 0x0\ntaken 6\n");
    assert_eq!(
        report.to_string(),
        "follows    0 after: t1 is missing\n           as the rule gives it from before at 1\n\
         follows    1 before: t1 is missing\n           as the rule gives it from after at 1\n\
         wrong      1 after: t1 is missing\n           rule: after is the union of before at 0 and 2; from the sets as answered it gives t0 t1\n\
         wrong      2 before: t1 is missing\n           rule: 'label L2': no change; from after as answered (t1) it gives t1\n\
         wrong      taken: 6 should be 7\n\
         1 of 5 right, 4 wrong; 1 of these only follows from an earlier slip\n"
    );
    for (answer, says) in [
        ("0 3 3\n1 6 3\n2 2 2\n3 2 0\ntaken 7", &["1 before: t0 is missing; t2 should not be there"][..]),
        ("0 3 3\n1 3 3\n2 2 2\n3 2 0\n", &["taken: 7"]),
        ("0 3 3\n1 3 3\n3 2 0\ntaken 7", &["2: before t1, after t1"]),
        ("0 3 3\n1 3 3\n2 before 2\n3 2 0\ntaken 7", &["2 after: t1"]),
        ("0 3 3\n1 3 3\n2 2 2\n3 2 0\ntaken 7\n2 2 2\ntaken 7", &["line 6: 2 was answered in line 3, which counts", "line 7: taken was answered in line 5, which counts"]),
        ("0 3 3\n1 3 3\n2 2 2\n3 2 0\ntaken 7\n4 0 0\nrefused 7 1", &["line 6: the sheet has no offset 4", "line 7: the sheet is not refused"]),
        ("0 3 3\n1 3 3\n2 2 2\n3 2 t64\ntaken 7", &["line 4: 't64' is no local: there are 64 at most, t0 to t63", "3: before t1, after -"]),
        ("0 3 3\n1 3 3\n2 2 2\n3 t1 t0 -\ntaken 7", &["line 4: before and after cannot be told apart: put a bar between them, as in '0 t0 t1 | t1'", "3: before t1, after -"]),
        ("0 3 3\n1 3 3\n2 2 2\n3 2\ntaken 7", &["line 4: two sets are asked, before and after", "3: before t1, after -"]),
        ("0 3 3\n1 3 3\n2 2 2\n3 2 g\ntaken 7", &["line 4: 'g' is neither hex nor a local such as t0", "3: before t1, after -"]),
        ("0 3 3\n1 3 3\n2 2 2\n3 2 10000000000000000\ntaken 7", &["line 4: '10000000000000000' has more than 64 bits", "3: before t1, after -"]),
        ("0 3 3\n1 3 3\n2 2 2\n3 before 2 t0 after 0\ntaken 7", &["line 4: before: the hex 2 and the names behind it are different sets", "3: before t1, after -"]),
        ("0 3 3\n1 3 3\n2 2 2\n3 2 0\ntaken x", &["line 5: 'x' is no number", "taken: 7"]),
        ("0 3 3\n1 3 3\n2 2 2\nfour 2 0\ntaken 7", &["line 4: 'four' is no number: a line is 'OFFSET BEFORE AFTER', 'taken COUNT' or 'refused NUMBER PLACE'", "3: before t1, after -"]),
        ("0 3 3\n1 3 3\n2 2 2\n3 2 0\ntaken 7 8", &["line 5: 'taken' has one number behind it", "taken: 7"]),
    ] {
        let report = mark(&m2, answer);
        assert_eq!(said(&report), says, "{answer}");
        assert_eq!(report.right + report.wrong + report.missing, report.asked);
        assert!(!report.all_right());
    }
    // every rule in words
    let m3 = mark(&Question::sheet(&sheet("m3")), "0 1 3\n1 2 0\n2 1 1\n3 1 0\ntaken 7");
    assert_eq!(m3.findings[0].why, "rule: 't1 <- call Not t0 abort L1 into t0': t1 out, t0 in, then t0 out; from after as answered (t0 t1) it gives -");
    let m4 = mark(&Question::sheet(&sheet("m4")), "0 1 0\n1 0 1\ntaken 3");
    assert_eq!(m4.findings[0].why, "rule: 't1 <- copy t0': t1 is not in after, so no change; from after as answered (-) it gives -");
    assert_eq!(m4.findings[1].why, "rule: nothing comes behind it, so after is empty", "{m4}");
}
