//! Rewriting: the worked sheets, the edges of 9, 10 and 11, random sheets beside the plain reading, guards; what a refusal says.
use harness::{lent::lend, plain, random, random::Rng, Bytes};
use sorzibelu::{check, rewrite, sheet::*, text, Refusal};

/// What rewrite gives with so many bytes lent, nothing else moved.
fn rewritten(s: &[u8], room: usize) -> Result<Vec<u8>, (u16, u16)> {
    let (answer, wrote) = lend(room, room + s.len(), |len| len as usize, |out| rewrite(s, out)).unwrap();
    answer.map(|_| wrote)
}

fn worked(m: usize) -> Sheet {
    let name = format!("{}/../../sheets/m{m}.txt", env!("CARGO_MANIFEST_DIR"));
    text::assemble(&std::fs::read_to_string(name).unwrap()).unwrap()
}

fn code(s: &Sheet) -> Vec<String> {
    s.code.iter().map(text::instruction).collect()
}

#[test]
fn worked_sheets() {
    for (m, wanted) in [
        (1, &["ret t0"][..]),
        (2, &["label L1", "branch L1 L2 on t0", "label L2", "ret t1"]),
        (3, &["t1 <- call Not t0 abort L1 into t0", "ret t1", "label L1", "abort t0"]),
        (4, &["ret"]),
        (5, &["t0 <- load Bool", "t2 <- call Not t0", "ret t2"]),
        (
            6,
            &[
                "branch L1 L3 on t0", "label L1 @1", "t2 <- call ReadRef t1 @2", "ret t2 @3", "label L2 @4", "ret @5",
                "label L3 @6", "call Destroy t1 @7", "jump L2 @8",
            ],
        ),
    ] {
        let sheet = worked(m);
        let out = rewritten(&sheet.bytes(), MAX_BYTES).unwrap();
        let new = Sheet::of_bytes(&out);
        assert_eq!(code(&new), wanted, "M{m}");
        // in the heading only n and the check change
        assert_eq!(out, Sheet { code: new.code.clone(), ..sheet.clone() }.bytes());
        assert_eq!(check(&out), Ok(()));
    }
}

#[test]
fn readings() {
    let head = "locals 3 user 0 parameters 0 references t1 t2\n";
    for (given, wanted) in [
        // merging before dropping: the Call takes the destination of a dead Assign too
        ("t0 <- call Not\nt1 <- copy t0\nret", "t1 <- call Not\nret"),
        // a dropped Load between them keeps them apart
        ("t0 <- call Not\nt1 <- load Bool\nt2 <- copy t0\nret t2", "t0 <- call Not\nt2 <- copy t0\nret t2"),
        // one Assign a Call, and it keeps attribute id, payload and flag
        ("t0 <- call Function t2 abort L1 into t2 #7 @8\nt1 <- copy t0 @9\nt2 <- copy t1\nlabel L1\nret t2", "t1 <- call Function t2 abort L1 into t2 #7 @8\nt2 <- copy t1\nlabel L1\nret t2"),
        // a destination listed twice is two
        ("t0 t0 <- call Not\nt1 <- copy t0\nret t1", "t0 t0 <- call Not\nt1 <- copy t0\nret t1"),
        // a Stop merges as any Call
        ("t0 <- call Stop\nt1 <- copy t0\nret t1", "t1 <- call Stop\nret t1"),
        ("t0 <- copy t0\nret t0", "t0 <- copy t0\nret t0"),
        // both edges lose, the then block first, Destroys ascending; the highest Label is one that nobody names
        (
            "branch L1 L2 on t0\nlabel L1\nret t2\nlabel L2\nret t1\nlabel L9 @4\nret",
            "branch L10 L11 on t0\nlabel L1\nret t2\nlabel L2\nret t1\nlabel L9 @4\nret\nlabel L10 @5\ncall Destroy t1 @6\njump L1 @7\nlabel L11 @8\ncall Destroy t2 @9\njump L2 @10",
        ),
        (
            "branch L1 L2 on t0\nlabel L1\nret t2 t1\nlabel L2\nret",
            "branch L1 L3 on t0\nlabel L1\nret t2 t1\nlabel L2\nret\nlabel L3 @1\ncall Destroy t1 @2\ncall Destroy t2 @3\njump L2 @4",
        ),
    ] {
        let sheet = text::assemble(&format!("{head}{given}\n")).unwrap();
        let out = Sheet::of_bytes(&rewritten(&sheet.bytes(), MAX_BYTES).unwrap());
        assert_eq!(text::list(&out), format!("{head}{wanted}\n"));
    }
}

/// M6 with another else label and highest attribute id, and Nops in front.
fn moved(label: u16, attr: u16, nops: usize) -> Vec<u8> {
    let mut s = worked(6);
    s.code[0].two = label;
    s.code[4].one = label;
    s.code[5].attr = attr;
    s.code.splice(0..0, vec![Instruction::new(NOP); nops]);
    s.bytes()
}

#[test]
fn edges_of_9_10_and_11() {
    let n = |r: Result<Vec<u8>, (u16, u16)>| r.map(|s| u16::from_le_bytes([s[4], s[5]]));
    for (s, wanted) in [
        (moved(65_534, 5, 0), Ok(9)),
        (moved(65_535, 5, 0), Err((10, 0))),
        (moved(2, 65_532, 0), Ok(9)),
        (moved(2, 65_533, 0), Err((10, 0))),
        (moved(65_534, 65_532, 0), Ok(9)),
        (moved(2, 5, 1_015), Ok(1_024)),
        (moved(2, 5, 1_016), Err((11, 0))),
        // both at once is 10
        (moved(65_535, 5, 1_016), Err((10, 0))),
        (moved(2, 65_535, 1_018), Err((10, 0))),
    ] {
        assert_eq!(n(rewritten(&s, MAX_BYTES)), wanted);
        assert_eq!(plain::rewrite(&s).map(|t| u16::from_le_bytes([t[4], t[5]])), wanted);
        assert_eq!(n(rewritten(&s, MAX_BYTES + 1)), wanted);
        // 9 comes before 10 and 11
        assert_eq!(n(rewritten(&s, MAX_BYTES - 1)), Err((9, 0)));
        assert_eq!(n(rewritten(&s, 0)), Err((9, 0)));
    }
    // 18 before 9, 10 and 11
    let stopped = |s: &[u8]| {
        let mut sheet = Sheet::of_bytes(s);
        let n = sheet.code.len();
        sheet.code[n - 1] = Instruction { sub: STOP, one: 1, abort: Some(0), attr: sheet.code[n - 1].attr, ..Instruction::new(CALL) };
        (sheet.bytes(), n as u16 - 1)
    };
    for (s, at) in [moved(65_535, 5, 0), moved(2, 5, 1_016)].map(|s| stopped(&s)) {
        for room in [0, MAX_BYTES - 1, MAX_BYTES] {
            assert_eq!(rewritten(&s, room), Err((18, at)));
        }
    }
    // the highest of both, and no new block
    let s = text::assemble("locals 1 user 0 parameters 0 references t0\nlabel L65535 @65535\nbranch L65535 L65535 on t0\n").unwrap().bytes();
    assert_eq!(rewritten(&s, MAX_BYTES), Ok(s.clone()));
    // 1,024 instructions, none dropped, none added
    let s = Sheet { code: [vec![Instruction::new(NOP); 1_023], vec![Instruction::new(RET)]].concat(), ..Default::default() }.bytes();
    assert_eq!(s.len(), MAX_BYTES);
    assert_eq!(rewritten(&s, MAX_BYTES), Ok(s.clone()));
}

/// The sheets of docs/DIFFERENCES.md, where the Rust of diem/move would wrap a number or go on past 1,024 instructions.
#[test]
fn smallest_sheets_for_10_and_11() {
    let ten = "locals 1 user 0 parameters 0 references t0\nlabel L1\nbranch L1 L65535 on t0\nlabel L65535\nret\n";
    assert_eq!(rewritten(&text::assemble(ten).unwrap().bytes(), MAX_BYTES), Err((10, 0)));
    for (attr, passes) in [(65_532, true), (65_533, false)] {
        let ten = format!("locals 1 user 0 parameters 0 references t0\nlabel L1\nbranch L1 L2 on t0\nlabel L2\nret @{attr}\n");
        assert_eq!(rewritten(&text::assemble(&ten).unwrap().bytes(), MAX_BYTES).is_ok(), passes);
    }
    let eight = |from: u8| (from..from + 8).map(|i| format!(" t{i}")).collect::<String>();
    let block = |label: &str, from: u8| format!("label {label}\nprop Assert{}\nprop Assert{}\nprop Assert{}\nret{}\n", eight(from), eight(from + 8), eight(from + 16), eight(from + 24));
    let eleven = |branches: usize| {
        let refs = eight(0) + &(1..8).map(|i| eight(8 * i)).collect::<String>();
        let t = format!("locals 64 user 0 parameters 0 references{refs}\n{}{}{}", "branch L1 L2 on t0\n".repeat(branches), block("L1", 0), block("L2", 32));
        rewritten(&text::assemble(&t).unwrap().bytes(), MAX_BYTES).map(|s| u16::from_le_bytes([s[4], s[5]]))
    };
    assert_eq!(eleven(14), Ok(14 + 10 + 14 * 68));
    assert_eq!(eleven(15), Err((11, 0)));
}

#[test]
fn random_sheets() {
    let mut rng = Rng::new(6);
    let mut met = [0; 19];
    for _ in 0..1_500 {
        let shape = random::shape(&mut rng);
        let sheet = if rng.chance(2) { random::lossy(&mut rng) } else { random::sheet(&mut rng, shape) };
        for t in [Some(sheet.clone()), random::edge(&mut rng, &sheet)].into_iter().flatten() {
            let s = t.bytes();
            let plain = plain::rewrite(&s);
            met[plain.as_ref().map_or_else(|(number, _)| *number as usize, |_| 0)] += 1;
            assert_eq!(rewritten(&s, MAX_BYTES + rng.below(2) * rng.below(500)), plain, "{}", text::list(&t));
            assert_eq!(rewritten(&s, rng.below(MAX_BYTES)), Err((9, 0)));
            if let Ok(new) = plain {
                assert_eq!(check(&new), Ok(()));
            }
        }
        let t = random::damage(&mut rng, &sheet.bytes());
        if let Err(r) = plain::check(&t) {
            met[r.0 as usize] += 1;
            assert_eq!(rewritten(&t, rng.below(40_000)), Err(r));
        }
    }
    assert!(met[0] > 500 && [10, 11, 18].iter().all(|number| met[*number] > 50), "{met:?}");
}

#[test]
fn what_a_refusal_says() {
    for (number, place, says) in [
        (1, 0, "refused 1 0: the length is no multiple of 512, below 1,024 or above 35,840"),
        (2, 3, "refused 2 3: block 3: "),
        (3, 0, "refused 3 0: the heading"),
        (4, 7, "refused 4 7: offset 7: the record"),
        (5, 7, "refused 5 7: offset 7: a local"),
        (6, 7, "refused 6 7: offset 7: the Label repeats"),
        (7, 7, "refused 7 7: offset 7: a label is named that no Label has"),
        (8, 7, "refused 8 7: offset 7: the last instruction"),
        (9, 0, "refused 9 0: the lent output is too short"),
        (10, 0, "refused 10 0: a new label or attribute id would be above 65,535"),
        (11, 0, "refused 11 0: the rewritten code would exceed 1,024 instructions"),
        (12, 0, "refused 12 0: graph 1: more than 64 nodes"),
        (12, 1, "refused 12 1: graph 2: more than 64 nodes"),
        (13, 300, "refused 13 300: graph 1: the list's length"),
        (13, 1_300, "refused 13 1300: graph 2: the list's length"),
        (13, 255, "refused 13 255: graph 1, triple 255: "),
        (13, 1_000, "refused 13 1000: graph 2, triple 0: "),
        (14, 0, "refused 14 0: the asked node"),
        (15, 7, "refused 15 7: offset 7: an IsParent or WriteBack hides a local"),
        (16, 0, "refused 16 0: the number of the first block is not 0"),
        (17, 0, "refused 17 0: a class set has more than 16 sheets"),
        (18, 7, "refused 18 7: offset 7: a Stop has an abort action"),
        (19, 7, "refused 19 7: a number that this version does not know"),
    ] {
        let said = Refusal::of(number, place).to_string();
        assert!(said.starts_with(says), "{said}");
    }
}
