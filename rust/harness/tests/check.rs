//! Checks 1 to 8 and 18 against the plain reading of document 01: random sheets, damaged copies, edges; 18 and its place among the others in every call.
use harness::{
    lent::lend,
    plain::{self, rank, SHEET_NUMBERS, SHEET_SETS},
    random,
    random::Rng,
    Bytes,
};
use sorzibelu::{check, flow, label, live, live_class, livelist, page, renumber, rewrite, sheet::*, text, Refusal, FLOW_NUMBERS, LIVELIST_BYTES, LIVE_BYTES, PAGE_BYTES};

type Call = fn(&[u8], &mut [u8]) -> Result<u32, Refusal>;

fn compare(s: &[u8]) -> u16 {
    let ours = check(s).map_err(|r| (r.number(), r.place()));
    let plain = plain::check(s);
    assert_eq!(ours, plain, "a sheet of {} bytes: {:?}", s.len(), s);
    plain.err().map_or(0, |(number, _)| number)
}

#[test]
fn random_sheets_are_accepted() {
    let mut rng = Rng::new(1);
    for _ in 0..3_000 {
        let shape = random::shape(&mut rng);
        let s = random::sheet(&mut rng, shape).bytes();
        assert_eq!(compare(&s), 0);
    }
}

#[test]
fn damaged_sheets_get_number_and_place() {
    let mut rng = Rng::new(2);
    let mut met = [0; 10];
    let mut beside = [0; 9];
    for _ in 0..3_000 {
        let shape = random::shape(&mut rng);
        let s = random::sheet(&mut rng, shape).bytes();
        for _ in 0..10 {
            let t = random::damage(&mut rng, &s);
            met[rank(compare(&t))] += 1;
            beside.iter_mut().zip(beside_18(&t)).for_each(|(m, is)| *m += usize::from(is));
        }
    }
    // every number was met, and often, and 18 beside each of the others
    assert!(met.iter().all(|n| *n > 10) && met[rank(18)] >= 1_000, "{met:?}");
    assert!(beside.iter().all(|n| *n >= 20), "{beside:?}");
}

/// It is a Stop with an abort action.
fn is_flagged_stop(r: &[u8]) -> bool {
    r[0] == CALL && r[1] == STOP && r[10] == 1
}

/// The records below the instruction count of a sheet that 1 to 3 let through.
fn records(s: &[u8]) -> Vec<&[u8]> {
    let n = u16::from_le_bytes([s[4], s[5]]) as usize;
    (0..n).map(|k| &s[record_start(k)..][..RECORD]).collect()
}

/// What a sheet has beside a Stop with an abort action: where a 4 is the answer, this in front of it or behind it; where 18 is, a Stop without a flag and a flagged Call in
/// front, another 18 behind, and what is left without the flags, 5 to 8.
fn beside_18(s: &[u8]) -> [bool; 9] {
    let mut is = [false; 9];
    match plain::check(s) {
        Err((4, k)) => {
            let first = records(s).into_iter().position(is_flagged_stop);
            is[0] = first.is_some_and(|first| (k as usize) < first);
            is[1] = first.is_some_and(|first| (k as usize) > first);
        }
        Err((18, k)) => {
            let all = records(s);
            let (before, behind) = (&all[..k as usize], &all[k as usize + 1..]);
            is[2] = before.iter().any(|r| r[0] == CALL && r[1] == STOP);
            is[3] = before.iter().any(|r| r[0] == CALL && r[10] == 1);
            is[4] = behind.iter().any(|r| is_flagged_stop(r));
            let mut sheet = Sheet::of_bytes(s);
            sheet.code.iter_mut().filter(|r| r.kind == CALL && r.sub == STOP).for_each(|r| (r.one, r.abort) = (0, None));
            if let Err((number, _)) = plain::check(&sheet.bytes()) {
                is[number as usize] = true;
            }
        }
        _ => {}
    }
    is
}

/// A sheet over two locals, behind the heading's last word.
fn written(text: &str) -> Vec<u8> {
    text::read(&format!("locals 2 user 2 parameters 0 references{text}\n")).unwrap().bytes
}

/// Behind 1 to 4 and before 5 to 8, each over the whole sheet before the next; at the first Stop with an abort action.
#[test]
fn flagged_stops() {
    let stop = "call Stop abort L1 into t0";
    for (text, number, place) in [
        // alone: first, last, between, whatever its lists, payload and attribute id are
        (format!("\n{stop}\nlabel L1\nret"), 18, 0),
        (format!("\nlabel L1\n{stop}"), 18, 1),
        ("\nlabel L0\nnop\nt0 t1 <- call Stop t1 abort L0 into t1 #18 @18\nret".into(), 18, 2),
        // reached or not
        (format!("\nlabel L1\nret\n{stop}\nret"), 18, 2),
        // the first of several; Stops without a flag and flagged Calls in front
        (format!("\nlabel L1\nnop\n{stop}\nnop\n{stop}\n{stop}"), 18, 2),
        (format!("\ncall Stop\ncall Stop\nlabel L1\n{stop}\nret"), 18, 3),
        (format!("\nlabel L1\ncall Havoc abort L1 into t0\ncall IsParent abort L1 into t0\n{stop}\nret"), 18, 3),
        // before 5, in front, behind and in the same record
        (format!("\nprop Assert t2\nlabel L1\n{stop}\nret"), 18, 2),
        (format!("\nlabel L1\n{stop}\nret t2"), 18, 1),
        ("\nlabel L1\nt2 <- call Stop t3 abort L1 into t4\nret".into(), 18, 1),
        // before 6 and 7, the same
        (format!("\nlabel L1\nlabel L1\n{stop}\nret"), 18, 2),
        (format!("\n{stop}\nlabel L1\nlabel L1\nret"), 18, 0),
        (format!("\njump L2\nlabel L1\n{stop}\nret"), 18, 2),
        (format!("\n{stop}\nlabel L1\njump L2"), 18, 0),
        ("\nnop\ncall Stop abort L2 into t0\nret".into(), 18, 1),
        // before 8
        (format!("\nlabel L1\n{stop}\nnop"), 18, 1),
        // behind 1, 2 and 3
        (format!(" bytes 1023\nlabel L1\n{stop}\nret"), 1, 0),
        (format!("\nblock 1 check 5\nlabel L1\n{stop}\nret"), 2, 1),
        (format!(" t2\nlabel L1\n{stop}\nret"), 3, 0),
        // behind 4, in front, behind, past the last instruction; a flagged Stop past it is a record that is not zero
        (format!("\nraw kind 12\nlabel L1\n{stop}\nret"), 4, 0),
        (format!("\nlabel L1\n{stop}\nraw kind 8 sub 1\nret"), 4, 2),
        (format!(" count 3\nlabel L1\n{stop}\nret\nnop"), 4, 3),
        (format!(" count 1\nret\n{stop}"), 4, 1),
        // 4 in a Stop itself: flag 2, a label or a local without a flag, nine sources
        (format!("\nlabel L1\nraw kind 1 sub 18 one L1 flag 2 into t0\n{stop}\nret"), 4, 1),
        ("\nlabel L1\nraw kind 1 sub 18 one L1\nret".into(), 4, 1),
        ("\nraw kind 1 sub 18 into t1\nret".into(), 4, 0),
        ("\nlabel L1\nraw kind 1 sub 18 one L1 flag 1 sources 9\nret".into(), 4, 1),
        // 4: the other exits, and a Jump, with a flag
        ("\nraw kind 2 flag 1\nret".into(), 4, 0),
        ("\nraw kind 7 flag 1 sources 1 t0\nret".into(), 4, 0),
        ("\nlabel L1\nraw kind 5 one L1 flag 1".into(), 4, 1),
    ] {
        let s = written(&text);
        assert_eq!(plain::check(&s), Err((number, place)), "{text}");
        compare(&s);
    }
    for text in [
        "\ncall Stop",
        "\ncall Stop\nret",
        "\nt0 t1 <- call Stop t1 t0 #18 @18\ncall Stop",
        "\nlabel L18\ncall Not abort L18 into t0 #18 @18\nret @18",
        "\nlabel L1\ncall Havoc abort L1 into t0\ncall Stop",
    ] {
        assert_eq!(compare(&written(text)), 0, "{text}");
    }
}

/// Every operation with every flag: a Stop with flag 1 alone is 18, and what is no flag is 4.
#[test]
fn every_operation_and_flag() {
    for sub in 0..=255 {
        for flag in [0, 1, 2, 3, 17, 18, 128, 255] {
            let s = written(&format!("\nlabel L0\nraw kind 1 sub {sub} flag {flag}\nret"));
            let wanted = match (sub, flag) {
                (55.., _) | (_, 2..) => Err((4, 1)),
                (18, 1) => Err((18, 1)),
                _ => Ok(()),
            };
            assert_eq!(check(&s).map_err(|r| (r.number(), r.place())), wanted, "sub {sub}, flag {flag}");
            compare(&s);
        }
    }
}

/// At every offset of the longest sheet, alone and in front of another one.
#[test]
fn a_flagged_stop_at_every_offset() {
    let stop = Instruction { sub: STOP, abort: Some(0), ..Instruction::new(CALL) };
    let mut sheet = Sheet { locals: 1, code: vec![Instruction::new(NOP); 1_024], ..Default::default() };
    let mut rng = Rng::new(3);
    for k in 0..1_024 {
        for other in [k, k + rng.below(1_024 - k)] {
            let old = sheet.code.clone();
            sheet.code[k] = stop.clone();
            sheet.code[other] = stop.clone();
            assert_eq!(check(&sheet.bytes()), Err(Refusal::FlaggedStop(k as u16)));
            sheet.code = old;
        }
    }
}

/// Each call that reads a sheet turns it away so, whatever is lent, and leaves that as it was; the texts say so.
#[test]
fn every_call_refuses_flagged_stops() {
    let mut rng = Rng::new(4);
    let mut met = 0;
    while met < 150 {
        let shape = random::shape(&mut rng);
        let s = random::sheet(&mut rng, shape).bytes();
        let t = random::damage(&mut rng, &s);
        let Err((18, place)) = plain::check(&t) else { continue };
        met += 1;
        let refused = Err((18, place));
        let room = |enough: usize| [0, 1, enough - 1, enough][met % 4];
        assert_eq!(check(&t), Err(Refusal::FlaggedStop(place)));
        assert_eq!(lend(room(FLOW_NUMBERS), met, |b| 6 * b as usize, |out| flow(&t, out)).unwrap().0, refused);
        assert_eq!(lend(room(LIVE_BYTES), met, |_| 0, |out| live(&t, out)).unwrap().0, refused);
        assert_eq!(lend(room(MAX_BYTES), met, |b| b as usize, |out| rewrite(&t, out)).unwrap().0, refused);
        assert_eq!(lend(room(MAX_BYTES), met, |b| b as usize, |out| renumber(&t, out)).unwrap().0, refused);
        assert_eq!(label(&t, rng.number() as u32 >> rng.below(32)), Err(Refusal::FlaggedStop(place)));
        let (mut sets, mut answers) = (vec![7; SHEET_SETS], [7; SHEET_NUMBERS]);
        assert_eq!(live_class(&t, &mut sets, &mut answers), Ok(1));
        assert_eq!(answers, [18, place.into(), 0]);
        assert!(sets.iter().all(|x| *x == 7));
        let line = format!("refused 18 {place}\n");
        for (call, enough) in [(page as Call, PAGE_BYTES), (livelist, LIVELIST_BYTES)] {
            let (_, text) = lend(enough, met, |length| length as usize, |out| call(&t, out)).unwrap();
            assert_eq!(text, line.as_bytes());
        }
    }
}

#[test]
fn edges() {
    assert_eq!(compare(&[]), 1);
    for len in [1, 511, 512, 513, 1023, 1025, 35_839, 35_841, 36_352] {
        assert_eq!(compare(&vec![0; len]), 1);
        assert_eq!(compare(&vec![255; len]), 1);
    }
    for len in [1024, 35_840] {
        compare(&vec![0; len]);
        compare(&vec![255; len]);
    }
    let ret = || Instruction::new(RET);
    let nop = || Instruction::new(NOP);
    let long = |n: usize| Sheet { code: (1..n).map(|_| nop()).chain([ret()]).collect(), ..Default::default() }.bytes();
    assert_eq!(compare(&long(1024)), 0);
    // n 1,025 in 70 blocks is 3
    let mut s = long(1024);
    s[4..6].copy_from_slice(&1025u16.to_le_bytes());
    seal(&mut s);
    assert_eq!(compare(&s), 3);
    // 65 locals are 3, 64 pass
    for (locals, number) in [(64, 0), (65, 3)] {
        assert_eq!(compare(&Sheet { locals, code: vec![ret()], ..Default::default() }.bytes()), number);
    }
    // a record past n that is not zero is 4 at its own place
    let mut s = long(2);
    s[record_start(14)] = 1;
    seal(&mut s);
    assert_eq!(plain::check(&s), Err((4, 14)));
    assert_eq!(compare(&s), 4);
}
