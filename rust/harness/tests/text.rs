//! The text form: an exact round trip, and a line number for every error.
use harness::{plain, random, random::Rng, Bytes};
use sorzibelu::{check, sheet::*, text};

#[test]
fn round_trip() {
    let mut rng = Rng::new(3);
    for _ in 0..2_000 {
        let shape = random::shape(&mut rng);
        let sheet = random::sheet(&mut rng, shape);
        let listed = text::list(&sheet);
        assert_eq!(text::assemble(&listed).as_ref(), Ok(&sheet), "{listed}");
        assert_eq!(Sheet::of_bytes(&sheet.bytes()), sheet);
    }
}

#[test]
fn offsets_may_stand_in_front() {
    let plain = "locals 1 user 1 parameters 0 references\nlabel L1\nbranch L1 L2 on t0\nlabel L2\nret\n";
    let numbered = "locals 1 user 1 parameters 0 references\n0: label L1\n1: branch L1 L2 on t0\nlabel L2\n\n3: ret // the last\n";
    assert_eq!(text::assemble(numbered), text::assemble(plain));
}

#[test]
fn every_error_has_its_line() {
    let head = "locals 2 user 2 parameters 0 references t1\n";
    for (text, line, part) in [
        ("", 1, "no heading"),
        ("nop\n", 1, "no heading: 'nop' where 'locals N user N"),
        ("locals 2 user 2 parameters 0 references t64\n", 1, "no reference"),
        ("locals x user 2 parameters 0 references\n", 1, "'x' is not the number of locals"),
        (head, 1, "no instruction"),
        (&format!("{head}// only a comment\n"), 2, "no instruction"),
        (&format!("{head}nop\nhop\n"), 3, "'hop' is no instruction"),
        (&format!("{head}\n\nt0 <- copy\n"), 4, "the line ends where a local"),
        (&format!("{head}copy t0\n"), 2, "'copy' has no destinations"),
        (&format!("{head}t0 t1 <- load U64\n"), 2, "'load' has 2 destinations"),
        (&format!("{head}t0 <- ret\n"), 2, "'ret' has 1 destinations"),
        (&format!("{head}call Nott\n"), 2, "'Nott' is not an operation"),
        (&format!("{head}jump 1\n"), 2, "'1' is not a label"),
        (&format!("{head}jump L65536\n"), 2, "too large"),
        (&format!("{head}call Not t0 t0 t0 t0 t0 t0 t0 t0 t0\n"), 2, "9 locals"),
        (&format!("{head}call Not abort L1 t0\n"), 2, "'t0' where 'into' should stand"),
        (&format!("{head}ret t1 #4\n"), 2, "'ret' has no payload"),
        (&format!("{head}ret t1 @70000\n"), 2, "too large"),
        (&format!("{head}ret t1 t\n"), 2, "'t' stands behind the end"),
        (&format!("{head}0: nop\n\n2: ret\n"), 4, "'2:' stands before the instruction of offset 1"),
        (&format!("{head}99999999999999999999: ret\n"), 2, "stands before the instruction of offset 0"),
        (&format!("{head}0:\n"), 2, "the line ends where an instruction should stand"),
        (&format!("{head}: ret\n"), 2, "':' is no instruction"),
        (&format!("{head}x: ret\n"), 2, "'x:' is no instruction"),
    ] {
        let faults = text::assemble(text).expect_err(text);
        let fault = &faults.first[0];
        assert!(faults.len() == 1 && fault.line == line && fault.what.contains(part), "{text:?}: {fault}");
    }
}

#[test]
fn every_fault_at_once() {
    let text = "\u{feff}parameters 0 references t1 user 2 locals 2\r\nnop\r\nhop\r\n2: ret\r\ncall not t0\r\n9: nop\r\n10: nop\r\nNot t0\r\nret T0\r\nrte\r\nret t0, t1\r\n# here\r\nlabel l1\r\njump L1 L2\r\n";
    let faults = text::assemble(text).unwrap_err();
    assert_eq!(
        faults.to_string(),
        "line 3: 'hop' is no instruction: did you mean nop?\n\
         line 5: 'not' is not an operation: did you mean Not?\n\
         line 6: '9:' stands before the instruction of offset 4\n\
         line 8: 'Not' is no instruction: did you mean call Not?\n\
         line 9: 'T0' stands behind the end of the instruction: did you mean t0?\n\
         line 10: 'rte' is no instruction: did you mean ret?\n\
         line 11: 't0,' stands behind the end of the instruction: did you mean t0?\n\
         line 12: '#' is no instruction: a comment starts with //\n\
         line 13: 'l1' is not a label such as L1: did you mean L1?\n\
         line 14: 'L2' stands behind the end of the instruction"
    );
    assert_eq!(text::read(text).unwrap_err(), faults);
}

#[test]
fn fields_in_any_order() {
    let head = "locals 3 user 3 parameters 0 references\n";
    for (given, wanted) in [
        ("branch on t0 L1 L2", "branch L1 L2 on t0"),
        ("branch L1 @4 on t0 L2", "branch L1 L2 on t0 @4"),
        ("t1 <- call Not @3 #9 t0", "t1 <- call Not t0 #9 @3"),
        ("t1 <- call Not into t2 abort L1 t0 t1", "t1 <- call Not t0 t1 abort L1 into t2"),
        ("t1 <- call Not t0 @5 abort L1 into t2 #6", "t1 <- call Not t0 abort L1 into t2 #6 @5"),
        ("prop Assume #1 t0 @1 t1", "prop Assume t0 t1 #1 @1"),
        ("label @1 L1", "label L1 @1"),
    ] {
        let sheet = text::assemble(&format!("{head}{given}\n")).unwrap();
        assert_eq!(text::instruction(&sheet.code[0]), wanted);
    }
    for (given, part) in [
        ("branch L1 L2 on t0 on t1", "'on' stands behind the end"),
        ("branch L1 L2 t0", "'t0' where 'on' should stand"),
        ("ret @1 @2", "'@2': a second one of this sort"),
        ("call Not into t0", "the line ends where 'abort' should stand"),
        ("call Not abort L1", "the line ends where 'into' should stand"),
        ("jump L1 L2", "'L2' stands behind the end"),
        ("jump", "the line ends where a label"),
        ("branch L1 L2", "the line ends where 'on' should stand"),
    ] {
        let faults = text::assemble(&format!("{head}{given}\n")).unwrap_err();
        assert!(faults.first[0].what.contains(part), "{given}: {faults}");
    }
    for (heading, part) in [
        ("locals 1 user 1 parameters 0", "the heading has no 'references'"),
        ("locals 1 user 1 locals 1", "'locals' stands twice"),
        ("locals 1 usr 1", "'usr' is no field of the heading: did you mean user?"),
        ("locals 1 user 1 parameters 0 references tO", "'tO' stands behind the end of the heading"),
    ] {
        let faults = text::assemble(&format!("{heading}\nret\n")).unwrap_err();
        assert!(faults.to_string().contains(part), "{heading}: {faults}");
    }
}

/// Any bytes at all have a text that gives them again.
#[test]
fn raw_round_trip() {
    let mut rng = Rng::new(12);
    let mut refused = [0; 10];
    for i in 0..3_000 {
        let shape = random::shape(&mut rng);
        let sheet = random::sheet(&mut rng, shape);
        let mut bytes = sheet.bytes();
        assert!(i > 200 || text::list_raw(&bytes) == text::list(&sheet));
        bytes = match i % 4 {
            0 => random::damage(&mut rng, &bytes),
            1 => {
                for _ in 0..5 {
                    let at = rng.below(bytes.len());
                    bytes[at] = rng.number() as u8;
                }
                bytes
            }
            2 => (0..rng.below(2_000)).map(|_| if rng.chance(3) { rng.number() as u8 } else { 0 }).collect(),
            _ => bytes[..rng.below(bytes.len() + 1)].to_vec(),
        };
        let listed = text::list_raw(&bytes);
        let again = text::read(&listed).unwrap_or_else(|f| panic!("{f}\n{listed}"));
        assert!(again.bytes == bytes, "{listed}");
        if let Err(r) = check(&bytes) {
            refused[plain::rank(r.number())] += 1;
        }
    }
    assert!(refused[1..].iter().all(|n| *n > 3), "{refused:?}");
    for bytes in [vec![], vec![0; 512], vec![0; 1024], vec![255; 1024], vec![7], vec![7, 1, 3], vec![0; 40_000], vec![1; 513]] {
        assert_eq!(text::read(&text::list_raw(&bytes)).unwrap().bytes, bytes);
    }
}

/// Each refusal of a sheet can be written down, and belongs to a line.
#[test]
fn refusals_as_text() {
    let head = "locals 1 user 1 parameters 0 references";
    for (text, number, place, line) in [
        (format!("{head} bytes 1000\nret\n"), 1, 0, 1),
        (format!("{head} bytes 35841\nret\n"), 1, 0, 1),
        (format!("{head}\nblock 1 number 2\nret\n"), 2, 1, 2),
        (format!("{head}\nret\nblock 0 check 5\n"), 2, 0, 3),
        (format!("{head}\n\nblock 1 at 31 01\nret\n"), 2, 1, 3),
        ("locals 65 user 1 parameters 0 references\nret\n".into(), 3, 0, 1),
        (format!("{head} t1\nret\n"), 3, 0, 1),
        (format!("{head}\nblock 0 at 12 ff\nret\n"), 3, 0, 1),
        (format!("{head} bytes 1536\nret\n"), 3, 0, 1),
        (format!("{head} count 0\nret\n"), 3, 0, 1),
        (format!("{head}\nret\nraw kind 2 sub 1\n"), 4, 1, 3),
        (format!("{head} count 1\nret\nnop\n"), 4, 1, 3),
        (format!("{head}\nraw kind 8 destinations 0 t1\nret\n"), 4, 0, 2),
        (format!("{head}\nlabel L1\n\ncall Stop abort L1 into t0\nret\n"), 18, 1, 4),
        (format!("{head}\nret t1\nraw kind 1 sub 18 one L7 flag 1 into t9 @3\nnop\n"), 18, 1, 3),
        (format!("{head}\nnop\nret t1\n"), 5, 1, 3),
        (format!("{head}\nlabel L1\nlabel L1\nret\n"), 6, 1, 3),
        (format!("{head}\njump L1\n"), 7, 0, 2),
        (format!("{head}\nnop\n"), 8, 0, 2),
    ] {
        let written = text::read(&text).unwrap_or_else(|f| panic!("{text}: {f}"));
        let refusal = check(&written.bytes).unwrap_err();
        assert_eq!((refusal.number(), refusal.place(), written.fault(refusal).line), (number, place, line), "{text}");
        assert_eq!(text::read(&text::list_raw(&written.bytes)).unwrap().bytes, written.bytes, "{text}");
    }
    let long = "locals 0 user 0 parameters 0 references\n".to_string() + &"nop\n".repeat(1_024) + "ret\n";
    assert_eq!(check(&text::read(&long).unwrap().bytes).unwrap_err().number(), 3);
    assert_eq!(text::assemble(&long).unwrap_err().to_string(), "line 1026: more than 1,024 instructions");
    for text in ["count 1", "bytes 600"] {
        assert!(text::assemble(&format!("{head} {text}\nret\n")).unwrap_err().to_string().contains("unchecked"));
    }
    for (text, part) in [
        ("block 9 number 1\nret\n", "block 9 is past the end of 1024 bytes"),
        ("block 1 at 3 00\nret\n", "place 3 is not from 4 to 511"),
        ("block 1 at 511 00 01\nret\n", "place 512 is not from 4 to 511"),
        ("block 1 numbr 1\nret\n", "'numbr' is no field of a block: did you mean number?"),
        ("block 1 check 1\nblock 1 check 1\nret\n", "block 1 has a check already"),
        ("raw kind 256\n", "'256' is too large for a kind"),
        ("raw kind 1 kind 1\n", "'kind': a second one"),
        ("raw knd 1\n", "'knd' is no field of a record: did you mean kind?"),
        ("raw kind 1 sources 1 t0 t0 t0 t0 t0 t0 t0 t0 t0\n", "9 locals where at most 8"),
    ] {
        let faults = text::read(&format!("{head}\n{text}")).unwrap_err();
        assert!(faults.to_string().contains(part), "{text}: {faults}");
    }
}

#[test]
fn refused_sheets_have_texts() {
    let dir = concat!(env!("CARGO_MANIFEST_DIR"), "/../../sheets/");
    for name in ["kind12", "stop"] {
        let (bytes, text) = (std::fs::read(format!("{dir}{name}.sheet")).unwrap(), std::fs::read_to_string(format!("{dir}{name}.txt")).unwrap());
        assert_eq!(text::read(&text).unwrap().bytes, bytes);
        assert!(text.ends_with(&text::list_raw(&bytes)));
    }
}

/// Any file gives faults in no time, and few lines of them.
#[test]
fn large_texts() {
    let head = "locals 0 user 0 parameters 0 references\n";
    let wide = "t0 ".repeat(2 << 20);
    for text in [format!("{head}{}\n", "x".repeat(20 << 20)), format!("{head}{wide}"), wide.clone(), format!("{head}ret {wide}"), format!("locals 0 references {wide}")] {
        let faults = text::read(&text).unwrap_err();
        assert!(faults.len() == 1 && faults.to_string().len() < 200, "{faults}");
    }
    let faults = text::read(&(head.to_string() + &"hop\n".repeat(200_000))).unwrap_err();
    assert!(faults.len() >= 200_000 && faults.to_string().ends_with(" more") && faults.to_string().lines().count() == 101);
    assert_eq!(text::read(&"hop\n".repeat(2_000_000)).unwrap_err().len(), 1);
    let faults = text::read(&(head.to_string() + &"nop\n".repeat(2_000_000))).unwrap_err();
    assert_eq!(faults.to_string(), "line 1: 2000000 instructions are more than a heading can count");
}
