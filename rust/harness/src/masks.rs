//! A small Rust program of masks with one work list, written to time the proved calls against: the same sheet bytes, checks, output and count, and a list as long
//! that is cleared in each call. It allocates nothing: fixed arrays, every record decoded once. Not proved; held to the proved calls on random sheets below.
mod checks;
mod flow;
mod label;
mod live;
mod renumber;
mod rewrite;

pub use checks::check;
pub use flow::flow;
pub use label::label;
pub use live::{live, live_with_table};
pub use renumber::renumber;
pub use rewrite::rewrite;
use sorzibelu::sheet::{record_start, ABORT, BRANCH, CALL, JUMP, RECORD, RET, STOP};

const MOST: usize = 1024;
const DESTROY: u8 = 13;
const IS_PARENT: u8 = 19;
const WRITE_BACK: u8 = 20;

/// As many keys as can ever be taken: 1 + (1,024 + 1) * (64 + 1).
pub const LIST: usize = 66_626;

type Refused = (u16, u16);

/// Where the two labels of each instruction stand.
pub type Targets = [[u16; 2]; MOST];

fn u16_at(s: &[u8], at: usize) -> u16 {
    u16::from_le_bytes([s[at], s[at + 1]])
}

fn u64_at(s: &[u8], at: usize) -> u64 {
    u64::from_le_bytes(s[at..at + 8].try_into().unwrap())
}

fn record(s: &[u8], k: usize) -> &[u8; RECORD] {
    let at = record_start(k);
    s[at..at + RECORD].try_into().unwrap()
}

fn names(r: &[u8; RECORD]) -> usize {
    match r[0] {
        BRANCH => 2,
        JUMP => 1,
        CALL => r[10] as usize,
        _ => 0,
    }
}

fn exits(r: &[u8; RECORD]) -> bool {
    matches!(r[0], RET | ABORT) || r[0] == CALL && r[1] == STOP
}

fn falls(r: &[u8; RECORD]) -> bool {
    match r[0] {
        RET | ABORT | BRANCH | JUMP => false,
        CALL => r[1] != STOP,
        _ => true,
    }
}

#[cfg(test)]
mod tests {
    use crate::{plain, random, random::Rng, Bytes};
    use sorzibelu::{check, flow, label, live, renumber, rewrite};

    #[test]
    fn answers_are_the_proved_ones() {
        let mut rng = Rng::new(11);
        let mut met = [0; 19];
        for turn in 0..4000 {
            let shape = random::shape(&mut rng);
            let mut s = random::sheet(&mut rng, shape).bytes();
            if turn % 4 == 3 {
                s = random::damage(&mut rng, &s);
            }
            let mut targets = [[0; 2]; 1024];
            let proved = check(&s).map_err(|f| (f.number(), f.place()));
            met[proved.map_or_else(|(number, _)| number as usize, |()| 0)] += 1;
            assert_eq!(proved, super::check::<false>(&s, &mut targets).map(|_| ()));
            let (mut a, mut b) = (vec![7; 6 * 1024], vec![7; 6 * 1024]);
            assert_eq!(flow(&s, &mut a).map_err(|f| (f.number(), f.place())), super::flow(&s, &mut b));
            assert_eq!(a, b);
            let (mut a, mut b, mut c) = (vec![7; 16 * 1024], vec![7; 16 * 1024], vec![7; 16 * 1024]);
            let proved = live(&s, &mut a).map_err(|f| (f.number(), f.place()));
            assert_eq!(proved, super::live(&s, &mut b));
            assert_eq!(proved, super::live_with_table(&s, &mut c));
            assert_eq!(a, b);
            assert_eq!(a, c);
            let (mut a, mut b) = (vec![7; 35_840], vec![7; 35_840]);
            assert_eq!(rewrite(&s, &mut a).map_err(|f| (f.number(), f.place())), super::rewrite(&s, &mut b));
            assert_eq!(a, b);
        }
        assert!(plain::CHECKS.iter().all(|number| met[*number as usize] > 10) && met[18] > 100, "{met:?}");
    }

    #[test]
    fn renumbered_as_the_proved_call_does() {
        let mut rng = Rng::new(12);
        let mut met = [0; 19];
        for turn in 0..4000 {
            let shape = random::shape(&mut rng);
            let mut s = if turn % 2 == 0 { random::numbered(&mut rng) } else { random::sheet(&mut rng, shape) }.bytes();
            if turn % 4 == 3 {
                s = random::damage(&mut rng, &s);
            }
            // enough, mostly; else a little less
            let room = if rng.chance(8) { s.len().saturating_sub(1 + rng.below(600)) } else { s.len() + rng.below(600) };
            let (mut a, mut b) = (vec![7; room], vec![7; room]);
            let proved = renumber(&s, &mut a).map_err(|f| (f.number(), f.place()));
            met[proved.map_or_else(|(number, _)| number as usize, |_| 0)] += 1;
            assert_eq!(proved, super::renumber(&s, &mut b));
            assert_eq!(a, b);
        }
        assert!(met[0] > 1000 && [9, 15, 18].iter().all(|number| met[*number] > 100), "{met:?}");
    }

    #[test]
    fn looked_up_as_the_proved_call_does() {
        let mut rng = Rng::new(14);
        let mut met = [0; 4];
        for turn in 0..4000 {
            let shape = random::shape(&mut rng);
            let sheet = random::sheet(&mut rng, shape);
            let labels = plain::labels(&sheet.code);
            let asked = match labels.len() {
                0 => rng.number() as u32,
                many => labels[rng.below(many)] + if rng.chance(8) { 65_536 } else { 0 },
            };
            let s = if turn % 4 == 3 { random::damage(&mut rng, &sheet.bytes()) } else { sheet.bytes() };
            let proved = label(&s, asked).map(plain::packed).map_err(|f| (f.number(), f.place()));
            met[proved.map_or(0, |value| value as usize >> 16)] += 1;
            assert_eq!(proved, super::label(&s, asked));
        }
        assert!(met.iter().all(|m| *m > 300), "{met:?}");
    }
}
