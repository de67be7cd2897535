//! Every edge of document 01 that a sheet can show, every rule of renumbering, every way of a label.
use harness::{Bytes, random};
use sorzibelu::{sheet::*, text};
use std::fs;

pub fn assembled(t: &str) -> Sheet {
    text::assemble(t).unwrap()
}

pub fn nops(n: usize, last: &str) -> Sheet {
    assembled(&format!("locals 2 user 0 parameters 0 references t1\n{}{last}\n", "nop\n".repeat(n - 1)))
}

/// Every rule of renumbering, and its refusal at early and late places.
pub fn numberings() -> Vec<Sheet> {
    let head = |users: u16, references: &str| format!("locals 6 user {users} parameters 0 references{references}\n");
    let mut all = vec![assembled(&fs::read_to_string(format!("{}/../../sheets/spare.txt", env!("CARGO_MANIFEST_DIR"))).expect("sheets/"))];
    for code in [
        "ret", "ret t5", "ret t5 t4 t3 t2 t1 t0", "t5 t4 <- call Not t3 t0 abort L1 into t2\nlabel L1\nret t1", "call Function abort L1 into t4\nlabel L1\nret",
        "t3 t3 t5 <- call Not t5 t3 t3\nret", "t4 <- copy t4\nret t4", "ret t3\nt0 <- load U64 #7\nabort t2", "t4 <- call ReadRef t5\nret t4", "call TraceLocal t5 #5\nret",
        "t5 <- call Not t4\ncall Stop", "t5 <- move t4 @9\nbranch L7 L8 on t3 @7\nlabel L7\njump L8\nlabel L8\nnop\nsavemem #1\nsavespecvar #2\nprop Modifies t2 t1 #65535\nabort t0",
        "call IsParent\nret", "ret t4\ncall WriteBack t5 #4294967295\nret", "nop\nt5 <- call WriteBack t4 abort L1 into t3\ncall IsParent\nlabel L1\nret", "call IsParent t5\nret",
    ] {
        all.extend([(0, " t5"), (1, " t0 t2 t4"), (4, " t1 t3 t5"), (6, "")].map(|(users, references)| assembled(&(head(users, references) + code + "\n"))));
    }
    let last = Instruction { srcs: vec![63, 0], ..Instruction::new(RET) };
    let nops = vec![Instruction::new(NOP); 1_022];
    for sub in [20, 28] {
        let call = Instruction { sub, dsts: (56..64).rev().collect(), srcs: (0..8).collect(), ..Instruction::new(CALL) };
        all.push(Sheet { locals: 64, references: 1 << 63 | 1, code: [&nops[..], &[call, last.clone()]].concat(), ..Default::default() });
    }
    all
}

/// Sheets and the labels that are asked of them: each way, whoever names a label and wherever it stands, numbers at the limits and past them, each refusal.
pub fn lookups() -> Vec<(Vec<u8>, Vec<u32>)> {
    let head = "locals 1 user 1 parameters 0 references\n";
    let mut all = vec![];
    for (code, asked) in [
        // no Label at all; an unflagged Call's label one is 0, and so are those of other kinds: they name nothing
        ("ret", &[0, 1, 65_535, 65_536, u32::MAX][..]),
        ("label L0\nnop\ncall Not\nt0 <- load Bool\nret", &[0, 1, 65_536]),
        ("call Stop\nlabel L0\nret", &[0]),
        // named by then, by else, by both, by a Jump and by a Call with an abort action; the others are not
        ("branch L1 L2 on t0\nlabel L1\nlabel L2\nlabel L3\nret", &[0, 1, 2, 3, 4]),
        ("branch L2 L2 on t0\nlabel L1\nlabel L2\nret", &[1, 2]),
        ("jump L1\nlabel L1\nlabel L0\nret", &[0, 1]),
        ("call Not abort L1 into t0\nlabel L0\nlabel L1\nret", &[0, 1]),
        // named only in front of the Label, only behind it, only where no path leads
        ("jump L7\nlabel L6\nlabel L7\nret", &[6, 7]),
        ("label L6\nlabel L7\nnop\njump L7", &[6, 7]),
        ("label L7\nbranch L7 L7 on t0", &[7]),
        ("nop\nlabel L1\nret\njump L1", &[1]),
        ("ret\nlabel L1\njump L1\nlabel L2\nret", &[1, 2]),
        ("nop\nlabel L1\nret\ncall Not abort L1 into t0\nret", &[1]),
        // the same number in another field: an attribute id, a payload
        ("label L5\ncall Not #5 @5\nsavemem #5\nret @5", &[5]),
        // the limits of a label's number; a number that is one of them in its low bits
        ("label L65535\nlabel L0\nbranch L65535 L0 on t0", &[0, 65_535, 65_536, 65_536 + 65_535, u32::MAX]),
        ("label L65535\nlabel L0\nlabel L1\nret", &[0, 1, 65_535, 65_536, 65_537, 131_072, 1 << 31, u32::MAX]),
        ("label L256\nlabel L1\njump L256", &[0, 1, 255, 256, 257, 65_536 + 256]),
        // refused
        ("call Stop abort L1 into t0\nlabel L0\nlabel L1\nret", &[0, 1, 65_536]),
        ("label L1\nret t1", &[1]),
        ("label L1\nlabel L1\njump L1", &[1, 2]),
        ("label L1\njump L2", &[1, 2]),
        ("jump L1\nlabel L1", &[1, u32::MAX]),
    ] {
        all.push((assembled(&format!("{head}{code}\n")).bytes(), asked.to_vec()));
    }
    // a Label at the first offset and at the last one that a Label can have, named from the other end
    for (first, last) in [("label L9", "jump L9"), ("jump L9", "label L9\nret"), ("nop", "label L9\nret"), ("label L9", "ret")] {
        let between = "nop\n".repeat(1_024 - 1 - last.lines().count());
        all.push((assembled(&format!("{head}{first}\n{between}{last}\n")).bytes(), vec![0, 9, 10]));
    }
    // 1,023 Labels from the highest number down, one of them named
    let down = (0..1_023).map(|k| Instruction { one: 65_535 - k, ..Instruction::new(LABEL) });
    let code = down.chain([Instruction { one: 65_000, ..Instruction::new(JUMP) }]).collect();
    all.push((Sheet { code, ..Default::default() }.bytes(), vec![0, 64_512, 64_513, 64_514, 65_000, 65_534, 65_535]));
    // 1 to 4
    let fine = all[0].0.clone();
    let at = |at: usize, to: u8| fine.iter().enumerate().map(|(i, x)| if i == at { to } else { *x }).collect::<Vec<u8>>();
    let (mut heading, mut record) = (at(6, 65), at(record_start(0), 12));
    seal(&mut heading);
    seal(&mut record);
    all.extend([vec![], vec![0; 36_352], at(2, 9), at(512, 2), heading, record].map(|s| (s, vec![0, 65_536])));
    all
}

/// A Label, Nops and a Ret, but at each of these offsets a Call with an abort action.
fn flagged(n: usize, sub: u8, places: &[usize]) -> Vec<u8> {
    let mut code = vec![Instruction::new(NOP); n];
    code[0] = Instruction { one: 1, ..Instruction::new(LABEL) };
    code[n - 1] = Instruction::new(RET);
    places.iter().for_each(|k| code[*k] = Instruction { sub, one: 1, abort: Some(1), ..Instruction::new(CALL) });
    Sheet { locals: 2, code, ..Default::default() }.bytes()
}

/// 18 alone, at the first of several, in front of 5 to 8 and behind 1 to 4 in the same sheet, at every sort of place; and sheets that are nearly refused so.
pub fn flagged_stops() -> Vec<Vec<u8>> {
    let head = "locals 2 user 2 parameters 0 references t1";
    let mut all: Vec<Vec<u8>> = vec![];
    for t in [
        // alone: first, last, between, with both lists, payload and attribute id; behind Stops without a flag and flagged Calls
        "\ncall Stop abort L1 into t0\nlabel L1\nret", "\nlabel L1\ncall Stop abort L1 into t0", "\nlabel L0\nnop\nt0 t1 <- call Stop t1 abort L0 into t1 #18 @18\nret",
        "\ncall Stop\nt0 <- call Stop t1\nlabel L1\ncall Stop abort L1 into t0\nret", "\nlabel L1\ncall Havoc abort L1 into t0\ncall IsParent t1 abort L1 into t0\ncall Stop abort L1 into t0\nret",
        // the first of several
        "\nnop\nlabel L1\ncall Stop abort L1 into t1\ncall Stop abort L1 into t0\nret", "\nlabel L1\ncall Stop abort L1 into t0\nret\ncall Stop\ncall Stop abort L1 into t1",
        // with a 5 in front, behind and of its own, a 6, a 7 likewise, an 8, all of them
        "\nprop Assert t2\nlabel L1\ncall Stop abort L1 into t0\nret", "\nlabel L1\ncall Stop abort L1 into t0\nret t2", "\nnop\nlabel L1\ncall Stop t9 abort L1 into t2\nret",
        "\nlabel L1\nlabel L1\ncall Stop abort L1 into t0\nret", "\ncall Stop abort L1 into t0\nlabel L1\nlabel L1\nret", "\njump L9\nlabel L1\ncall Stop abort L1 into t0\nret",
        "\nnop\ncall Stop abort L7 into t0\nret", "\nlabel L1\ncall Stop abort L1 into t0\nbranch L1 L2 on t0", "\nlabel L1\ncall Stop abort L1 into t0\nnop",
        "\nret t2\nlabel L1\nlabel L1\njump L9\ncall Stop abort L9 into t2\nnop",
        // a payload that hides a local, which renumbering looks for behind it
        "\ncall WriteBack t1\nlabel L1\ncall Stop abort L1 into t0\ncall IsParent\nret",
        // 4 in front, behind, past the last instruction, and of a Stop itself: flag 2, a label or a local without a flag, a ninth source
        "\nraw kind 12\nlabel L1\ncall Stop abort L1 into t0\nret", "\nlabel L1\ncall Stop abort L1 into t0\nraw kind 8 sub 1\nret", " count 3\nlabel L1\ncall Stop abort L1 into t0\nret\nnop",
        " count 1\nret\ncall Stop abort L1 into t0", "\nlabel L1\nraw kind 1 sub 18 one L1 flag 2 into t0\ncall Stop abort L1 into t0\nret", "\nraw kind 1 sub 18 flag 255\nret",
        "\nlabel L1\nraw kind 1 sub 18 one L1\nret", "\nraw kind 1 sub 18 into t1\nret", "\nlabel L1\nraw kind 1 sub 18 one L1 flag 1 sources 9\nret",
        // 4: a flagged Ret, Abort or Jump
        "\nraw kind 2 flag 1\nret", "\nlabel L1\nraw kind 7 one L1 flag 1 into t1 sources 1 t0", "\nlabel L1\nraw kind 5 one L1 flag 1",
        // 1, 2 and 3
        " bytes 1023\nlabel L1\ncall Stop abort L1 into t0\nret", "\nblock 1 check 5\nlabel L1\ncall Stop abort L1 into t0\nret", " t2\nlabel L1\ncall Stop abort L1 into t0\nret",
        // accepted: Stops without a flag, first, last and between; other Calls with one; 18 in other fields
        "\ncall Stop\nret", "\nnop\ncall Stop #1 @1", "\nt0 t1 <- call Stop t1 t0 #18\ncall Stop\nret", "\nlabel L1\ncall Havoc t0 abort L1 into t1\nret",
        "\nlabel L1\nt0 <- call IsParent abort L1 into t1\ncall Stop", "\nlabel L1\ncall OpaqueCallEnd abort L1 into t0\ncall FreezeRef abort L1 into t0\ncall TraceAbort abort L1 into t0\nret",
        "\nlabel L18\ncall Not abort L18 into t0 #18 @18\nsavemem #18\nret @18",
    ] {
        all.push(text::read(&format!("{head}{t}\n")).expect("a text").bytes);
    }
    // the last record of a block and the first of the next, the last of the longest sheet, two blocks apart; the operations beside it at the same places
    for places in [&[14][..], &[15], &[29], &[30, 31], &[15, 1_023], &[511, 512], &[1_022, 1_023], &[1_023]] {
        all.push(flagged((places[places.len() - 1] + 1).max(32), STOP, places));
    }
    all.extend([flagged(1, STOP, &[0]), flagged(15, STOP, &[14]), flagged(16, STOP, &[15]), flagged(32, STOP - 1, &[14, 15, 30]), flagged(32, STOP + 1, &[14, 15, 30])]);
    all
}

/// Every edge of document 01 that a sheet can show.
pub fn edges() -> Vec<Vec<u8>> {
    let worked = ["m1", "m2", "m3", "m4", "m5", "m6"].map(|m| fs::read(format!("{}/../../sheets/{m}.sheet", env!("CARGO_MANIFEST_DIR"))).expect("sheets/"));
    let m6 = Sheet::of_bytes(&worked[5]);
    let mut all: Vec<Vec<u8>> = worked.to_vec();
    // 1
    for len in [0, 1, 511, 512, 1023, 1025, 1536, 35_840, 35_841, 36_352] {
        all.push(vec![0; len]);
    }
    // lengths, n 1,024 and 1,025, 64 and 65 locals
    for n in [1, 2, 14, 15, 16, 29, 30, 31, 1_010, 1_023, 1_024] {
        all.push(nops(n, "ret t0").bytes());
        all.push(nops(n, "nop").bytes());
    }
    for n in [0u16, 1_025, 1_010, 65_535] {
        let mut s = nops(1_024, "ret").bytes();
        s[4..6].copy_from_slice(&n.to_le_bytes());
        seal(&mut s);
        all.push(s);
    }
    for locals in [0, 63, 64, 65] {
        all.push(Sheet { locals, code: vec![Instruction { srcs: vec![locals.saturating_sub(1) as u8], ..Instruction::new(RET) }], ..Default::default() }.bytes());
        all.push(Sheet { locals, user_locals: 64, parameters: 64, references: u64::MAX, code: vec![Instruction::new(RET)] }.bytes());
    }
    // 2 to 4 in every byte of the two blocks of M2, sealed again or not
    for at in 0..1024 {
        let interesting = at < 32 || at == 511 || (512..512 + 32).contains(&at) || (544..544 + 5 * 32).contains(&at) || at % 32 == 0 || at == 1023;
        if interesting {
            for sealed in [false, true] {
                let mut s = worked[1].clone();
                s[at] = s[at].wrapping_add(1);
                if sealed {
                    seal(&mut s);
                }
                all.push(s);
            }
        }
    }
    // late places
    let late = [(512 * 69 + 2, 1), (512 * 35, 1), (512 * 69 + 4, 1), (512 * 69 + 31, 9), (record_start(1_034) + 31, 1), (record_start(1_024), 255), (record_start(1_023) + 1, 1), (record_start(1_019) + 1, 1)];
    for (at, value) in late {
        for (sealed, early) in [(false, false), (true, false), (true, true)] {
            let mut s = nops(1_024, "ret").bytes();
            s[at] = value;
            if sealed {
                seal(&mut s);
            }
            if early {
                s[record_start(0) + 28] = 1; // a Nop's payload
                seal(&mut s);
            }
            all.push(s);
        }
    }
    for last in ["ret t2", "jump L1", "label L1\nlabel L1\nret", "label L1\nbranch L1 L7 on t0"] {
        all.push(nops(1_025 - last.lines().count(), last).bytes());
    }
    // order of the checks, and their places
    let head = "locals 2 user 2 parameters 0 references t1\n";
    for t in [
        "ret t2", "nop\nret t1 t9", "t0 <- call Not t1 abort L1 into t2\nlabel L1\nret", "label L1\nnop\nlabel L1\nret", "jump L3\nlabel L1\nlabel L1\nret",
        "branch L1 L2 on t0\nlabel L1\nret", "branch L2 L1 on t0\nlabel L1\nret", "jump L0\nlabel L65535\nret", "call Not abort L9 into t0\nret", "nop\nlabel L1",
        "call Stop", "ret\nt0 <- call Not", "jump L2\nlabel L1\nbranch L1 L2 on t0\nlabel L2\nret", "nop\nlabel L1\nret\njump L1",
        "branch L1 L1 on t0\nlabel L1\nret", "t1 <- call Not t0 abort L1 into t0\nret t1\nlabel L1\nret", "t0 <- call Not abort L1 into t0\nlabel L1\nret t0",
        "t1 <- call Not t0\nt0 <- copy t1\nret", "t1 <- call Not t0\nt0 <- load Bool\nt0 <- copy t1\nret t0", "t1 t1 <- call Not t0\nt0 <- copy t1\nret t0",
        "t0 <- call Stop\nt1 <- copy t0\nret t1", "label L65535\nbranch L65535 L65535 on t0", "t0 <- copy t0\nret t0", "label L1\njump L1", "label L65535\nnop @65535\nret @65535",
        "label L1\nbranch L1 L2 on t1\nlabel L2\nret", "label L1\nbranch L2 L1 on t1\nlabel L2\nret", "ret\nlabel L1\nbranch L1 L2 on t1\nlabel L2\nret",
    ] {
        all.push(assembled(&format!("{head}{t}\n")).bytes());
    }
    all.push(random::fullest().bytes());
    // 10 and 11 on both sides
    for (label, attr) in [(65_534, 5), (65_535, 5), (2, 65_532), (2, 65_533), (65_534, 65_532), (65_535, 65_533)] {
        let mut s = m6.clone();
        s.code[0].two = label;
        s.code[4].one = label;
        s.code[5].attr = attr;
        all.push(s.bytes());
        for n in [1_015, 1_016] {
            let mut t = s.clone();
            t.code.splice(0..0, vec![Instruction::new(NOP); n]);
            all.push(t.bytes());
        }
    }
    all
}
