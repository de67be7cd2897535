//! `cases ORACLE FOLDER`: writes FOLDER/stdin and FOLDER/stdout, the sheets of crates/livelist_test and the texts that must come out.
//!
//! The text of an accepted sheet is the original Rust's (`oracle live -`); the line of a refused one is the paper's, written here by hand.
use harness::Bytes;
use sorzibelu::sheet::*;
use std::{
    fs,
    io::Write,
    path::Path,
    process::{Command, Stdio},
};

fn sheet(locals: u16, code: Vec<Instruction>) -> Sheet {
    Sheet { locals, user_locals: locals, code, ..Default::default() }
}

fn of(kind: u8) -> Instruction {
    Instruction::new(kind)
}

fn label(l: u16) -> Instruction {
    Instruction { one: l, ..of(LABEL) }
}

fn jump(l: u16) -> Instruction {
    Instruction { one: l, ..of(JUMP) }
}

fn ret(srcs: &[u8]) -> Instruction {
    Instruction { srcs: srcs.to_vec(), ..of(RET) }
}

/// The bytes with one changed and every block's number and check written anew.
fn sealed(mut s: Vec<u8>, at: usize, to: u8) -> Vec<u8> {
    s[at] = to;
    seal(&mut s);
    s
}

fn changed(mut s: Vec<u8>, at: usize, to: u8) -> Vec<u8> {
    s[at] = to;
    s
}

/// A sheet, with its refusal where it is turned away.
type Case = (Vec<u8>, Option<(u16, u16)>);

fn cases(sheets: &Path) -> Vec<Case> {
    let worked = |k: usize| fs::read(sheets.join(format!("m{k}.sheet"))).unwrap();
    let m1 = worked(1);
    let bad_sub = Instruction { sub: 1, ..of(NOP) };
    let flagged = |sub: u8| Instruction { sub, one: 1, abort: Some(0), ..of(CALL) };
    let stop = || flagged(STOP);
    let full = |last: Vec<Instruction>| {
        let mut code = vec![of(NOP); 1024 - last.len()];
        code.extend(last);
        sheet(64, code).bytes()
    };
    let mut all: Vec<_> = (1..=6).map(|k| (worked(k), None)).collect();
    // 64 locals; the longest text
    all.push((sheet(64, vec![ret(&[0, 63])]).bytes(), None));
    all.push((full(vec![Instruction { dsts: vec![63], srcs: vec![31], ..of(ASSIGN) }, ret(&[63, 5])]), None));
    for (s, number, place) in [
        // 1
        (vec![], 1, 0),
        (vec![0; 512], 1, 0),
        (m1[..1023].to_vec(), 1, 0),
        ([&m1[..], &[0]].concat(), 1, 0),
        (vec![0; 35_841], 1, 0),
        // 2: a number, a check, a byte from 4 to 31; n 0 comes behind it
        (changed(m1.clone(), 0, 1), 2, 0),
        (changed(m1.clone(), 514, 5), 2, 1),
        (sealed(m1.clone(), 512 + 31, 1), 2, 1),
        (changed(sealed(m1.clone(), 4, 0), 512, 7), 2, 1),
        // 3: n 0, n 16 in two blocks, 65 locals, more user locals than locals, more parameters than user locals, a reference past the locals, byte 24
        (sealed(m1.clone(), 4, 0), 3, 0),
        (sealed(m1.clone(), 4, 16), 3, 0),
        (sheet(65, vec![ret(&[])]).bytes(), 3, 0),
        (sealed(m1.clone(), 8, 2), 3, 0),
        (sealed(m1.clone(), 10, 2), 3, 0),
        (sealed(m1.clone(), 16, 2), 3, 0),
        (sealed(m1.clone(), 24, 1), 3, 0),
        // n 1,025 in the 70 blocks that it asks
        (sealed(full(vec![ret(&[])]), 4, 1), 3, 0),
        // 4: kind 12; a sub past the last; a field that is not used; a record past n, met before a local that is too high
        (sealed(m1.clone(), 544, 12), 4, 0),
        (sheet(1, vec![of(NOP), Instruction { sub: 55, ..of(CALL) }, ret(&[])]).bytes(), 4, 1),
        (sheet(1, vec![Instruction { payload: 1, ..of(NOP) }, ret(&[])]).bytes(), 4, 0),
        (sealed(sheet(1, vec![ret(&[9]), ret(&[])]).bytes(), 544 + 14 * 32, 8), 4, 14),
        // 4 at 3 comes before 5 at 0
        (sheet(1, vec![Instruction { srcs: vec![9], ..of(PROP) }, of(NOP), of(NOP), bad_sub.clone(), ret(&[])]).bytes(), 4, 3),
        // 5: a source, a destination, an abort local
        (sheet(1, vec![ret(&[1])]).bytes(), 5, 0),
        (sheet(2, vec![of(NOP), Instruction { dsts: vec![2], ..of(LOAD) }, ret(&[])]).bytes(), 5, 1),
        (sheet(1, vec![label(1), Instruction { sub: 28, one: 1, abort: Some(1), ..of(CALL) }, ret(&[])]).bytes(), 5, 1),
        // 6, and before 7
        (sheet(0, vec![label(1), label(1), ret(&[])]).bytes(), 6, 1),
        (sheet(0, vec![jump(9), label(2), of(NOP), label(2), ret(&[])]).bytes(), 6, 3),
        // 7: a Jump, an else label, a flagged Call; and before 8
        (sheet(0, vec![of(NOP), jump(0)]).bytes(), 7, 1),
        (sheet(1, vec![label(1), Instruction { one: 1, two: 65_535, srcs: vec![0], ..of(BRANCH) }]).bytes(), 7, 1),
        (sheet(1, vec![flagged(28), of(NOP)]).bytes(), 7, 0),
        // 8: a Nop, a Label, a flagged Call
        (sheet(0, vec![of(NOP)]).bytes(), 8, 0),
        (sheet(0, vec![jump(3), label(3)]).bytes(), 8, 1),
        (sheet(1, vec![ret(&[]), label(1), flagged(28)]).bytes(), 8, 2),
        // 18: the first of two, behind a Stop without a flag and a flagged Call; at the last offset; before 5 to 8 in one sheet; behind 4, also past n; flag 2 is 4
        (sheet(1, vec![label(1), Instruction { sub: STOP, ..of(CALL) }, flagged(28), stop(), stop(), ret(&[])]).bytes(), 18, 3),
        (full(vec![label(1), stop()]), 18, 1_023),
        (sheet(1, vec![ret(&[9]), label(2), label(2), stop(), of(NOP)]).bytes(), 18, 3),
        (sheet(1, vec![label(1), stop(), bad_sub, ret(&[])]).bytes(), 4, 2),
        (sealed(sheet(1, vec![label(1), stop()]).bytes(), 544 + 14 * 32, 8), 4, 14),
        (sealed(sheet(1, vec![label(1), stop()]).bytes(), 544 + 32 + 10, 2), 4, 1),
    ] {
        all.push((s, Some((number, place))));
    }
    all
}

fn text_of(oracle: &str, s: &[u8]) -> Vec<u8> {
    let mut run = Command::new(oracle).args(["live", "-"]).stdin(Stdio::piped()).stdout(Stdio::piped()).spawn().unwrap();
    run.stdin.take().unwrap().write_all(s).unwrap();
    let done = run.wait_with_output().unwrap();
    assert!(done.status.success());
    done.stdout
}

fn main() {
    let words: Vec<String> = std::env::args().collect();
    let [_, oracle, folder] = &words[..] else { panic!("usage: cases ORACLE FOLDER") };
    let sheets = Path::new(env!("CARGO_MANIFEST_DIR")).join("../../sheets");
    let (mut input, mut output) = (vec![], vec![]);
    let all = cases(&sheets);
    for (s, refusal) in &all {
        input.extend((s.len() as u32).to_le_bytes());
        input.extend(s);
        match refusal {
            Some((number, place)) => writeln!(output, "refused {number} {place}").unwrap(),
            None => output.extend(text_of(oracle, s)),
        }
    }
    fs::write(Path::new(folder).join("stdin"), input).unwrap();
    fs::write(Path::new(folder).join("stdout"), output).unwrap();
    println!("{} sheets, {} of them refused", all.len(), all.iter().filter(|c| c.1.is_some()).count());
}
