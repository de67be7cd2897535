//! Renumbering: each rule on a sheet worked by hand, the order of the refusals, random sheets beside the plain reading, guards; live sets under the new numbers.
use harness::{Bytes, lent::lend, plain, random, random::Rng};
use sorzibelu::{check, live_sets, renumber, rewritten, sheet::*, text};

/// What renumber gives with so many bytes lent, nothing else moved.
fn renumbered(s: &[u8], room: usize) -> Result<Vec<u8>, (u16, u16)> {
    let (answer, wrote) = lend(room, room + s.len(), |len| len as usize, |out| renumber(s, out)).unwrap();
    answer.map(|_| wrote)
}

fn assembled(text: &str) -> Sheet {
    text::assemble(text).unwrap()
}

/// The listing of the renumbered sheet.
fn listed(text: &str) -> String {
    let s = assembled(text).bytes();
    let new = renumbered(&s, s.len()).unwrap();
    assert_eq!(new.len(), s.len());
    text::list(&Sheet::of_bytes(&new))
}

#[test]
fn rules() {
    for (given, wanted) in [
        // user locals keep their numbers, even where nothing mentions them; the others are numbered on by first mention
        ("locals 5 user 2 parameters 1 references\nret t4 t1 t2\n", "locals 4 user 2 parameters 1 references\nret t2 t1 t3\n"),
        // none is a user local, all are
        ("locals 3 user 0 parameters 0 references\nret t2 t1 t0\n", "locals 3 user 0 parameters 0 references\nret t0 t1 t2\n"),
        ("locals 3 user 3 parameters 3 references t0 t2\nret t2\n", "locals 3 user 3 parameters 3 references t0 t2\nret t2\n"),
        // destinations, sources, abort local
        (
            "locals 6 user 1 parameters 0 references\nt5 t4 <- call Not t3 t0 abort L1 into t2\nlabel L1\nret t1\n",
            "locals 6 user 1 parameters 0 references\nt1 t2 <- call Not t3 t0 abort L1 into t4\nlabel L1\nret t5\n",
        ),
        // record by record, those that no path reaches too
        ("locals 4 user 0 parameters 0 references\nret t3\nt0 <- load U64 #7\nabort t2\n", "locals 3 user 0 parameters 0 references\nret t0\nt1 <- load U64 #7\nabort t2\n"),
        // what only an abort action mentions stays
        (
            "locals 3 user 0 parameters 0 references t2\ncall Function abort L1 into t2\nlabel L1\nret\n",
            "locals 1 user 0 parameters 0 references t0\ncall Function abort L1 into t0\nlabel L1\nret\n",
        ),
        // one that is listed twice, or on both sides, has one number
        ("locals 3 user 0 parameters 0 references\nt2 t2 t1 <- call Not t2 t1 t1\nret\n", "locals 2 user 0 parameters 0 references\nt0 t0 t1 <- call Not t0 t1 t1\nret\n"),
        ("locals 2 user 0 parameters 0 references\nt1 <- copy t1\nret t1\n", "locals 1 user 0 parameters 0 references\nt0 <- copy t0\nret t0\n"),
        // the reference mask follows: a user local's bit stays, t4's moves, that of t2, which vanishes, goes
        ("locals 5 user 1 parameters 0 references t0 t2 t4\nt3 <- call ReadRef t4\nret t3\n", "locals 3 user 1 parameters 0 references t0 t2\nt1 <- call ReadRef t2\nret t1\n"),
        // a TraceLocal's payload names a local, and is left as it is
        ("locals 4 user 0 parameters 0 references\ncall TraceLocal t3 #3\nret\n", "locals 1 user 0 parameters 0 references\ncall TraceLocal t0 #3\nret\n"),
        // every kind, with attribute ids, labels and payloads as they were
        (
            "locals 9 user 1 parameters 0 references\nt8 <- move t7 @9\nt6 <- load Address #8 @8\nbranch L7 L8 on t5 @7\nlabel L7 @6\njump L8 @5\nlabel L8 @4\nnop @3\nsavemem #1 @2\nsavespecvar #2 @1\nprop Modifies t4 t3 #65535\nabort t2\n",
            "locals 8 user 1 parameters 0 references\nt1 <- move t2 @9\nt3 <- load Address #8 @8\nbranch L7 L8 on t4 @7\nlabel L7 @6\njump L8 @5\nlabel L8 @4\nnop @3\nsavemem #1 @2\nsavespecvar #2 @1\nprop Modifies t5 t6 #65535\nabort t7\n",
        ),
        // no locals, and none that is mentioned
        ("locals 0 user 0 parameters 0 references\nret\n", "locals 0 user 0 parameters 0 references\nret\n"),
        ("locals 64 user 0 parameters 0 references t0 t63\nret\n", "locals 0 user 0 parameters 0 references\nret\n"),
    ] {
        assert_eq!(listed(given), wanted);
    }
}

/// The zeros that name no local stay: list places past their count, and the abort local of a Call without flag.
#[test]
fn zeros_that_are_no_mention() {
    let s = assembled("locals 2 user 0 parameters 0 references\nt1 <- call Not t0\ncall Stop\n").bytes();
    let new = renumbered(&s, s.len()).unwrap();
    // t0 is now t1, and t1 is t0
    let mut first = [0; RECORD];
    (first[0], first[1], first[8], first[9], first[12], first[20]) = (CALL, 28, 1, 1, 0, 1);
    assert_eq!(new[record_start(0)..][..RECORD], first);
    assert_eq!(new[record_start(1)..], s[record_start(1)..]);
    // a Stop without lists mentions nothing
    assert_eq!(listed("locals 1 user 0 parameters 0 references\ncall Stop\n"), "locals 0 user 0 parameters 0 references\ncall Stop\n");
}

/// Sixty-four locals, from the last to the first.
#[test]
fn all_locals() {
    let eight = |from: u8| Instruction { srcs: (from..from + 8).rev().collect(), ..Instruction::new(PROP) };
    let code: Vec<Instruction> = (0..8).rev().map(|k| eight(8 * k)).chain([Instruction::new(RET)]).collect();
    let sheet = Sheet { locals: 64, references: 0x8000_0000_0000_00f1, code, ..Default::default() };
    let new = Sheet::of_bytes(&renumbered(&sheet.bytes(), 1_024).unwrap());
    assert_eq!((new.locals, new.references), (64, sheet.references.reverse_bits()));
    assert_eq!(new.code[0].srcs, [0, 1, 2, 3, 4, 5, 6, 7]);
    assert_eq!(new.code[7].srcs, [56, 57, 58, 59, 60, 61, 62, 63]);
    // the same, all but the last being user locals
    let most = Sheet { user_locals: 63, parameters: 63, ..sheet.clone() };
    assert_eq!(Sheet::of_bytes(&renumbered(&most.bytes(), 1_024).unwrap()), most);
    // a local above 63 user locals that nothing mentions
    let gone = Sheet { code: sheet.code[1..].to_vec(), ..most };
    let new = Sheet::of_bytes(&renumbered(&gone.bytes(), 1_024).unwrap());
    assert_eq!((new.locals, new.references), (63, 0xf1));
}

/// In the heading only the locals, the mask and the check change; every other byte of a block but its check is an instruction's.
#[test]
fn the_heading() {
    let s = assembled("locals 60 user 3 parameters 2 references t1 t59\nret t59\n").bytes();
    let new = renumbered(&s, s.len()).unwrap();
    let changed: Vec<usize> = (0..BLOCK).filter(|at| s[*at] != new[*at]).collect();
    // locals 4, references t1 and t3, and the sum of what is left
    assert_eq!(changed, [2, 6, 16, 23]);
    assert_eq!((new[6], new[16], new[23]), (4, 0b1010, 0));
    assert_eq!(check(&new), Ok(()));
}

#[test]
fn refusals_and_their_order() {
    let head = "locals 2 user 0 parameters 0 references t1\n";
    for (code, number, place) in [
        // at the first of them, whichever it is
        ("call IsParent\nret", 15, 0),
        ("nop\ncall WriteBack\ncall IsParent\nret", 15, 1),
        ("nop\nnop\ncall IsParent t1\ncall WriteBack\nret", 15, 2),
        // whatever its payload, lists and flag, reached or not
        ("nop\nt0 <- call WriteBack t1 #4294967295\nret", 15, 1),
        ("call WriteBack t1 abort L1 into t0\nlabel L1\nret", 15, 0),
        ("ret\ncall IsParent #1\nret", 15, 1),
        // 4, 18 and 5 to 8 come before it, in this order
        ("call IsParent\nraw kind 12\nret", 4, 1),
        ("call IsParent\ncall Stop abort L1 into t0\nraw kind 12\nlabel L1\nret", 4, 2),
        ("call IsParent\ncall Stop abort L1 into t0\nlabel L1\nret", 18, 1),
        ("label L1\ncall WriteBack\nret t2\ncall Stop abort L1 into t0\ncall Stop abort L1 into t0", 18, 3),
        ("call IsParent\nret t2", 5, 1),
        ("call IsParent\nlabel L1\nlabel L1\nret", 6, 2),
        ("call IsParent\njump L1", 7, 1),
        ("ret\ncall IsParent", 8, 1),
    ] {
        let s = text::read(&format!("{head}{code}\n")).unwrap().bytes;
        assert_eq!(plain::renumber(&s), Err((number, place)), "{code}");
        // and 9 behind all of them
        for room in [0, s.len() - 1, s.len(), MAX_BYTES] {
            assert_eq!(renumbered(&s, room), Err((number, place)), "{code}");
        }
    }
    assert_eq!(renumbered(&[], 0), Err((1, 0)));
    // 19 and 20 are IsParent and WriteBack in a Call alone, and the operations beside them are none of theirs
    for code in ["call Stop\nret", "call UnpackRef t1\nret", "ret @19", "t0 <- load Bool #20\nret"] {
        let s = assembled(&format!("{head}{code}\n")).bytes();
        assert!(renumbered(&s, s.len()).is_ok(), "{code}");
    }
}

/// As many bytes as the sheet has, and no more.
#[test]
fn room() {
    for n in [1, 15, 16, 1_024] {
        let mut code = vec![Instruction::new(NOP); n];
        code[n - 1] = Instruction { srcs: vec![8], ..Instruction::new(RET) };
        let s = Sheet { locals: 9, code, ..Default::default() }.bytes();
        assert_eq!(s.len(), BLOCK * (1 + n.div_ceil(PER_BLOCK)));
        for room in [0, 1, s.len() - BLOCK, s.len() - 1] {
            assert_eq!(renumbered(&s, room), Err((9, 0)));
        }
        for room in [s.len(), s.len() + 1, s.len() + BLOCK] {
            assert_eq!(renumbered(&s, room), plain::renumber(&s));
        }
    }
}

/// A set under the new numbers.
fn moved(old: &[u8], set: u64) -> u64 {
    old.iter().enumerate().map(|(i, x)| (set >> x & 1) << i).sum()
}

/// The live sets are those of the given sheet under the new numbers, and as many blocks are taken.
fn same_life(sheet: &Sheet, new: &[u8]) {
    let (was, is) = (live_sets(&sheet.bytes()).unwrap(), live_sets(new).unwrap());
    let old = plain::old_numbers(sheet);
    assert_eq!(is.taken, was.taken);
    assert_eq!(is.sets.len(), was.sets.len());
    for (a, b) in was.sets.iter().zip(&is.sets) {
        assert_eq!((moved(&old, a.before), moved(&old, a.after)), (b.before, b.after), "{}", text::list(sheet));
        // no local of theirs is lost
        assert_eq!((a.before.count_ones(), a.after.count_ones()), (b.before.count_ones(), b.after.count_ones()));
    }
}

/// What a sheet has that renumbering has to look at.
fn features(s: &Sheet) -> [bool; 8] {
    let mentioned: Vec<u8> = s.code.iter().flat_map(plain::mentions).collect();
    let listed = |x: u8| s.code.iter().any(|r| r.dsts.contains(&x) || r.srcs.contains(&x));
    let missing = |from: u16, to: u16| (from..to).any(|x| !mentioned.contains(&(x as u8)));
    let twice = |xs: &[u8]| xs.iter().enumerate().any(|(i, x)| xs[..i].contains(x));
    let calls = |subs: [u8; 2]| s.code.iter().any(|r| r.kind == CALL && subs.contains(&r.sub));
    [
        s.locals == 64,
        missing(0, s.user_locals),
        missing(s.user_locals, s.locals),
        calls([48, 48]),
        calls([19, 20]),
        s.code.iter().any(|r| r.abort.is_some_and(|x| !listed(x))),
        s.code.iter().any(|r| twice(&r.dsts) || twice(&r.srcs)),
        (s.user_locals..s.locals).any(|x| s.references >> x & 1 == 1),
    ]
}

#[test]
fn random_sheets() {
    let mut rng = Rng::new(61);
    let (mut met, mut refused, mut stopped, mut changed, mut seen) = ([0; 8], 0, 0, 0, 0);
    for turn in 0..3_000 {
        let shape = random::shape(&mut rng);
        let sheet = match turn % 4 {
            0 => random::lossy(&mut rng),
            1 => random::sheet(&mut rng, shape),
            _ => random::numbered(&mut rng),
        };
        let s = sheet.bytes();
        assert_eq!(check(&s), Ok(()), "{}", text::list(&sheet));
        let after = rewritten(&s).map(|new| Sheet::of_bytes(&new)).ok();
        for t in [Some(sheet), after].into_iter().flatten() {
            seen += 1;
            met.iter_mut().zip(features(&t)).for_each(|(m, has)| *m += usize::from(has));
            let s = t.bytes();
            let plain = plain::renumber(&s);
            assert_eq!(renumbered(&s, s.len() + rng.below(2) * rng.below(500)), plain, "{}", text::list(&t));
            let Ok(new) = plain else {
                refused += 1;
                assert_eq!(renumbered(&s, rng.below(s.len())), plain);
                continue;
            };
            assert_eq!(renumbered(&s, rng.below(s.len())), Err((9, 0)));
            changed += usize::from(new != s);
            assert_eq!(new.len(), s.len());
            assert_eq!(check(&new), Ok(()));
            assert_eq!(renumbered(&new, new.len()).as_ref(), Ok(&new), "once more");
            same_life(&t, &new);
        }
        let t = random::damage(&mut rng, &s);
        if let Err(r) = plain::check(&t) {
            stopped += usize::from(r.0 == 18);
            assert_eq!(renumbered(&t, rng.below(40_000)), Err(r));
        }
    }
    assert!(met.iter().all(|m| *m > 100) && refused > 100 && stopped > 100 && changed > seen / 3, "{met:?} {refused} {stopped} {changed} of {seen}");
}
