//! Labels: each way on a sheet worked by hand, numbers past 65,535, the refusals of check, blocks that start at named Labels alone, random sheets beside the plain reading.
use harness::{Bytes, plain, random, random::Rng};
use sorzibelu::{
    Lookup::{self, *},
    blocks, label, page_text,
    sheet::*,
    text,
};

/// The bytes of code over one local.
fn written(code: &str) -> Vec<u8> {
    text::read(&format!("locals 1 user 1 parameters 0 references\n{code}\n")).unwrap().bytes
}

fn looked_up(s: &[u8], number: u32) -> Result<Lookup, (u16, u16)> {
    label(s, number).map_err(|r| (r.number(), r.place()))
}

#[test]
fn rules() {
    for (code, number, wanted) in [
        // named by then, by else, by both, by a Jump, by a Call's abort action
        ("branch L1 L2 on t0\nlabel L1\nlabel L2\nret", 1, Named(1)),
        ("branch L1 L2 on t0\nlabel L1\nlabel L2\nret", 2, Named(2)),
        ("branch L1 L1 on t0\nlabel L1\nret", 1, Named(1)),
        ("jump L1\nlabel L1\nret", 1, Named(1)),
        ("call Not abort L1 into t0\nlabel L1\nret", 1, Named(1)),
        // by what stands in front, behind, or where no path leads
        ("jump L1\nnop\nlabel L1\nret", 1, Named(2)),
        ("label L1\nnop\njump L1", 1, Named(0)),
        ("nop\nlabel L1\nret\njump L1", 1, Named(1)),
        ("ret\nlabel L1\njump L1", 1, Named(1)),
        // a Label names nothing, itself neither; another label's name is not its name
        ("label L1\nret", 1, Unnamed(0)),
        ("jump L2\nlabel L1\nlabel L2\nret", 1, Unnamed(1)),
        // a field that is 0 because it is not used names no label 0
        ("label L0\ncall Not\nret", 0, Unnamed(0)),
        ("label L0\nlabel L1\njump L1", 0, Unnamed(0)),
        ("call Not abort L1 into t0\nlabel L0\nlabel L1\ncall Stop", 0, Unnamed(1)),
        ("label L0\nbranch L0 L1 on t0\nlabel L1\nret", 0, Named(0)),
        ("label L0\nbranch L1 L0 on t0\nlabel L1\nret", 0, Named(0)),
        // nor do a payload and an attribute id
        ("label L5\ncall Not #5 @5\nret @5", 5, Unnamed(0)),
        // the highest number, and one of two bytes
        ("label L65535\njump L65535", 65_535, Named(0)),
        ("nop\nlabel L65535\nret", 65_535, Unnamed(1)),
        ("label L256\nlabel L1\njump L256", 256, Named(0)),
        ("label L256\nlabel L1\njump L256", 1, Unnamed(1)),
        // no Label has it
        ("ret", 0, Undefined),
        ("label L1\nlabel L3\njump L3", 2, Undefined),
        ("label L65535\njump L65535", 65_536, Undefined),
        ("label L65535\njump L65535", 65_536 + 65_535, Undefined),
        ("label L0\njump L0", 65_536, Undefined),
        ("label L7\njump L7", 65_536 + 7, Undefined),
        ("label L7\njump L7", (1 << 31) + 7, Undefined),
        ("label L65535\njump L65535", u32::MAX, Undefined),
    ] {
        let s = written(code);
        assert_eq!(looked_up(&s, number), Ok(wanted), "{code}: {number}");
        assert_eq!(plain::label(&s, number), Ok(wanted), "{code}: {number}");
    }
}

/// A Label at the first offset and at the last one that can have one, named from the other end or not at all; and as many Labels as a sheet can have.
#[test]
fn limits() {
    let nops = |first: &str, last: &str| written(&format!("{first}\n{}{last}", "nop\n".repeat(1_023 - last.lines().count())));
    assert_eq!(looked_up(&nops("label L9", "jump L9"), 9), Ok(Named(0)));
    assert_eq!(looked_up(&nops("label L9", "ret"), 9), Ok(Unnamed(0)));
    assert_eq!(looked_up(&nops("jump L9", "label L9\nret"), 9), Ok(Named(1_022)));
    assert_eq!(looked_up(&nops("nop", "label L9\nret"), 9), Ok(Unnamed(1_022)));
    let labels = |last: &str| written(&((0..1_023).map(|k| format!("label L{}\n", 64 * k)).collect::<String>() + last));
    for (last, named) in [("ret", None), ("jump L0", Some(0)), ("jump L32768", Some(512)), ("jump L65408", Some(1_022))] {
        let s = labels(last);
        for k in 0..1_023 {
            let at = k as u16;
            assert_eq!(looked_up(&s, 64 * k), Ok(if named == Some(k) { Named(at) } else { Unnamed(at) }));
            assert_eq!(looked_up(&s, 64 * k + 1), Ok(Undefined));
        }
    }
}

/// A refused sheet gives check's refusal, whatever the number.
#[test]
fn refusals() {
    for (code, number, place) in [
        ("raw kind 12\nret", 4, 0),
        ("call Stop abort L1 into t0\nlabel L1\nret", 18, 0),
        ("label L1\ncall Stop\nret t1\ncall Stop abort L2 into t0\nret", 18, 3),
        ("label L1\nret t1", 5, 1),
        ("label L1\nlabel L1\nret", 6, 1),
        ("label L1\njump L2", 7, 1),
        ("nop\nbranch L1 L2 on t0\nlabel L1\nret", 7, 1),
        ("jump L1\nlabel L1", 8, 1),
    ] {
        let s = written(code);
        for asked in [0, 1, 2, 65_535, 65_536, u32::MAX] {
            assert_eq!(looked_up(&s, asked), Err((number, place)), "{code}");
        }
    }
    for s in [&[][..], &[0; 512], &[7; 1_024], &[0; 1_024], &[255; 36_352]] {
        assert_eq!(looked_up(s, 1), plain::check(s).map(|()| Undefined));
    }
}

/// Who names a Label of a sheet, and from where.
fn features(code: &[Instruction], at: usize) -> [bool; 8] {
    let l = code[at].one;
    let by = |kind: u8| code.iter().any(|r| r.kind == kind && r.names().any(|x| x == l));
    let from = |mut some: std::ops::Range<usize>| some.any(|k| code[k].names().any(|x| x == l));
    let (before, behind) = (from(0..at), from(at..code.len()));
    [by(BRANCH), by(JUMP), by(CALL), before && !behind, behind && !before, before && behind, l == 65_535, at > 0 && !plain::ends_block(&code[at - 1])]
}

#[test]
fn random_sheets() {
    let mut rng = Rng::new(71);
    let (mut ways, mut met, mut refused, mut stopped) = ([0; 3], [[0; 8]; 2], 0, 0);
    for turn in 0..3_500 {
        let shape = random::shape(&mut rng);
        let sheet = if turn % 4 == 0 { random::lossy(&mut rng) } else { random::sheet(&mut rng, shape) };
        let s = sheet.bytes();
        let starts: Vec<u16> = blocks(&s).unwrap().iter().map(|b| b.lower).collect();
        let labels: Vec<usize> = (0..sheet.code.len()).filter(|k| sheet.code[*k].kind == LABEL).collect();
        for at in &labels {
            let number = u32::from(sheet.code[*at].one);
            let found = looked_up(&s, number).unwrap();
            assert_eq!(found, plain::lookup(&sheet.code, number), "{}", text::list(&sheet));
            let named = found == Named(*at as u16);
            assert!(named || found == Unnamed(*at as u16));
            // only a named Label starts a block that nothing else starts
            if *at > 0 && !plain::ends_block(&sheet.code[at - 1]) {
                assert_eq!(starts.contains(&(*at as u16)), named, "{}", text::list(&sheet));
            }
            met[usize::from(named)].iter_mut().zip(features(&sheet.code, *at)).for_each(|(m, has)| *m += usize::from(has));
            ways[if named { 0 } else { 1 }] += 1;
        }
        for number in [0, 1, rng.below(65_536) as u32, 65_536 + rng.below(70) as u32, rng.number() as u32] {
            let found = looked_up(&s, number);
            assert_eq!(found, plain::label(&s, number));
            ways[2] += usize::from(found == Ok(Undefined));
        }
        let t = random::damage(&mut rng, &s);
        if let Err(r) = plain::check(&t) {
            refused += 1;
            stopped += usize::from(r.0 == 18);
            assert_eq!(looked_up(&t, rng.number() as u32 >> rng.below(32)), Err(r));
        }
    }
    assert!(ways.iter().all(|w| *w > 5_000) && refused > 1_000 && stopped > 100, "{ways:?} {refused} {stopped}");
    // nothing names what is never named
    let [unnamed, named] = met;
    assert!(named.iter().all(|m| *m > 100) && unnamed[..6] == [0; 6] && unnamed[6..].iter().all(|m| *m > 50), "{met:?}");
}

/// The page's line of labels that nothing names is the calls' answer, by offset; there is none where every Label is named.
#[test]
fn on_the_page() {
    let line = |s: &[u8]| page_text(s).unwrap().lines().find(|l| l.starts_with("never named")).map(String::from);
    assert_eq!(line(&written("label L7\nlabel L3\nlabel L5\njump L3")), Some("never named L7 L5".into()));
    assert_eq!(line(&written("label L3\njump L3")), None);
    assert_eq!(line(&written("ret")), None);
    assert_eq!(line(&written("label L0\nret")), Some("never named L0".into()));
}
