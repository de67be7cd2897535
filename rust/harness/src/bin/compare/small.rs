//! Every small sheet over four alphabets.
use harness::Bytes;
use sorzibelu::{sheet::*, text};

pub const WIDE: &str = "
t0 <- copy t0
t0 <- move t1
t1 <- store t0
t1 <- copy t1
t0 <- call Not t0
t0 <- call Not t1
t1 <- call Not t0
t1 <- call Not t1
t0 <- call Function #9 @5
t0 t0 <- call Not t1
call Destroy t1
t0 <- call Not t1 abort L1 into t0
t1 <- call Not t0 abort L1 into t0
t0 <- call Not t0 abort L1 into t1
t1 <- call Not t1 abort L1 into t1
call Function abort L2 into t0
call Stop
t0 <- call Stop t1
call Stop abort L1 into t0
t1 <- call Stop t0 abort L1 into t1
ret
ret t0
ret t1
t0 <- load Bool
t1 <- load U64 #4294967295
branch L1 L1 on t0
branch L1 L2 on t0
branch L2 L1 on t1
jump L1
jump L2
label L1
label L2 @65535
abort t0
abort t1
nop
prop Assert t0
prop Assume t1
savemem #1
";

pub const MIDDLE: &str = "
t1 <- copy t0
t0 <- copy t1
t0 <- call Not t1
t1 <- call Not t0
t0 <- call Not t1 abort L1 into t1
call Stop
ret
ret t1
t0 <- load Bool
t1 <- load Bool
branch L1 L2 on t0
branch L2 L1 on t1
jump L1
label L1
label L2
prop Assert t1
t1 <- call Not abort L2 into t0
call Stop t0 abort L2 into t1
";

pub const NARROW: &str = "
branch L1 L2 on t0
label L1
label L2
t1 <- load Bool
ret
ret t1
t1 <- call Not t0
t0 <- copy t1
prop Assert t1
jump L1
";

pub const NUMBERED: &str = "
t2 <- copy t1
t1 <- move t2
t0 <- load U64
t2 t2 <- call Not t1
t1 <- call Not t0 t2
t1 <- call Function t2 abort L1 into t0
call Function abort L1 into t2
call TraceLocal t1 #2
call IsParent t2 #1
t2 <- call WriteBack t1 abort L1 into t0
call Stop t1
prop Assert t1 t2
ret
ret t2 t1
abort t1
label L1
branch L1 L1 on t2
jump L1
nop
savemem #2
";

/// Every sheet of `n` instructions over an alphabet, 2,000 at a time; one with a Branch under each of the four reference masks.
pub fn every(alphabet: &str, n: usize, take: impl FnMut(&[Vec<u8>])) {
    let headings = |code: &[Instruction]| {
        let masks = if code.iter().any(|r| r.kind == BRANCH) { 0..4 } else { 3..4 };
        masks.map(|references| Sheet { locals: 2, user_locals: 2, parameters: 1, references, ..Default::default() }).collect()
    };
    every_under(headings, alphabet, n, take);
}

/// The same over three locals, none to all of them user locals, under two reference masks that are each other's complement.
pub fn every_numbering(alphabet: &str, n: usize, take: impl FnMut(&[Vec<u8>])) {
    let under = |user_locals| [0b101, 0b010].map(|references| Sheet { locals: 3, user_locals, references, ..Default::default() });
    every_under(|_| (0..=3).flat_map(under).collect(), alphabet, n, take);
}

/// Every sheet of `n` instructions over an alphabet, under the headings that its code is given.
fn every_under(headings: impl Fn(&[Instruction]) -> Vec<Sheet>, alphabet: &str, n: usize, mut take: impl FnMut(&[Vec<u8>])) {
    let letters = text::assemble(&format!("locals 3 user 3 parameters 0 references{alphabet}")).unwrap().code;
    let mut batch = vec![];
    for number in 0..letters.len().pow(n as u32) {
        let code: Vec<Instruction> = (0..n as u32).map(|k| letters[number / letters.len().pow(k) % letters.len()].clone()).collect();
        batch.extend(headings(&code).into_iter().map(|heading| Sheet { code: code.clone(), ..heading }.bytes()));
        if batch.len() >= 2_000 {
            take(&batch);
            batch.clear();
        }
    }
    take(&batch);
}
