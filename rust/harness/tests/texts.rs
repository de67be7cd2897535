//! The texts of the proved functions beside the plain reading's: pages and lists of live sets, of stored, random, damaged and the longest sheets; guards.
use harness::{Bytes, lent::lend, page, plain, random, random::Rng};
use sorzibelu::{LIVELIST_BYTES, PAGE_BYTES, Refusal, check, livelist, livelist_text, page as proved_page, page_text, sheet::*};
use std::fs;

type Call = fn(&[u8], &mut [u8]) -> Result<u32, Refusal>;

/// What a call writes with so many bytes lent, nothing else moved.
fn written(call: Call, s: &[u8], room: usize) -> Result<String, (u16, u16)> {
    let (answer, wrote) = lend(room, room + s.len(), |length| length as usize, |out| call(s, out)).unwrap();
    answer.map(|_| String::from_utf8(wrote).unwrap())
}

/// livelist's lines, from document 01.
fn plain_list(s: &[u8]) -> String {
    if let Err((number, place)) = plain::check(s) {
        return format!("refused {number} {place}\n");
    }
    let (sets, taken) = plain::live(&Sheet::of_bytes(s).code);
    let lines: String = sets.iter().enumerate().map(|(k, (before, after))| format!("{k} {before:016x} {after:016x}\n")).collect();
    lines + &format!("taken {taken}\n")
}

fn compare(s: &[u8], more: usize) {
    assert_eq!(written(proved_page, s, PAGE_BYTES + more).as_deref(), Ok(&page::page(s)[..]));
    assert_eq!(written(livelist, s, LIVELIST_BYTES + more).as_deref(), Ok(&plain_list(s)[..]));
    // as values
    assert_eq!(page_text(s), check(s).map(|()| page::page(s)));
    assert_eq!(livelist_text(s), check(s).map(|()| plain_list(s)));
}

#[test]
fn stored_sheets() {
    let dir = concat!(env!("CARGO_MANIFEST_DIR"), "/../../sheets/");
    for m in ["m1", "m2", "m3", "m4", "m5", "m6", "unnamed", "kind12", "stop"] {
        let s = fs::read(format!("{dir}{m}.sheet")).unwrap();
        assert_eq!(written(proved_page, &s, PAGE_BYTES).unwrap(), fs::read_to_string(format!("{dir}{m}.page")).unwrap(), "{m}");
        compare(&s, 0);
    }
}

#[test]
fn random_sheets() {
    let mut rng = Rng::new(31);
    for i in 0..150 {
        let shape = random::shape(&mut rng);
        let sheet = if i % 4 == 3 { random::lossy(&mut rng) } else { random::sheet(&mut rng, shape) };
        compare(&sheet.bytes(), rng.below(3));
        compare(&random::damage(&mut rng, &sheet.bytes()), 0);
        if let Some(edge) = random::edge(&mut rng, &sheet) {
            compare(&edge.bytes(), 0);
        }
    }
    compare(&[], 0);
    compare(&random::fullest().bytes(), 0);
}

/// Every instruction has the longest line and every set is full.
#[test]
fn the_longest_page() {
    let eight: Vec<u8> = (56..64).collect();
    let call = Instruction { sub: 54, attr: 65_535, one: 65_535, dsts: eight.clone(), srcs: eight.clone(), abort: Some(63), payload: u32::MAX, ..Instruction::new(CALL) };
    let label = Instruction { one: 65_535, attr: 65_535, ..Instruction::new(LABEL) };
    let ret = Instruction { srcs: eight, attr: 65_535, ..Instruction::new(RET) };
    let code = [vec![label], vec![call; 1_022], vec![ret]].concat();
    let sheet = Sheet { locals: 64, user_locals: 64, parameters: 64, references: u64::MAX, code };
    compare(&sheet.bytes(), 0);
    let uses = |from: u8| Instruction { sub: 2, srcs: (from..from + 8).collect(), payload: u32::MAX, attr: 65_535, ..Instruction::new(PROP) };
    let all: Vec<Instruction> = (0..8).map(|k| uses(8 * k)).collect();
    let code = [vec![Instruction::new(NOP); 1_015], all, vec![Instruction::new(RET)]].concat();
    compare(&Sheet { code, ..sheet }.bytes(), 0);
    // and nothing names any of the most Labels
    let labels = (0..1_023).map(|k| Instruction { one: 65_535 - k, attr: 65_535, ..Instruction::new(LABEL) });
    let code = labels.chain([Instruction::new(RET)]).collect();
    compare(&Sheet { locals: 64, code, ..Default::default() }.bytes(), 0);
}

#[test]
fn too_little_room_is_9() {
    let m1 = Sheet { locals: 1, code: vec![Instruction { srcs: vec![0], ..Instruction::new(RET) }], ..Default::default() }.bytes();
    for s in [&m1[..], &[]] {
        for (call, enough) in [(proved_page as Call, PAGE_BYTES), (livelist, LIVELIST_BYTES)] {
            for room in [enough - 1, 44, 0] {
                assert_eq!(written(call, s, room), Err((9, 0)));
            }
        }
    }
}
