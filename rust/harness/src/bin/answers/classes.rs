//! Class sets: every edge of E3, random ones, and their stored answers, some of them made wrong on purpose.
use crate::{
    Maker,
    edges::{flagged_stops, nops},
    file::*,
};
use harness::{
    Bytes,
    classes::{self, Pool, TOO_MANY_BLOCKS, longer},
    oracle::*,
    plain::{self, SHEET_NUMBERS, SHEET_SETS},
    random,
    random::Rng,
};
use sorzibelu::sheet::{BLOCK, seal};
use std::fs;

/// Every edge of a class set.
fn edges() -> Vec<Vec<u8>> {
    let stored = |name: &str| fs::read(format!("{}/../../sheets/{name}.sheet", env!("CARGO_MANIFEST_DIR"))).expect("sheets/");
    let [m1, m2, m3, m6, kind12, stop] = ["m1", "m2", "m3", "m6", "kind12", "stop"].map(stored);
    let numbered = |class: &[u8], block: usize, number: u16| {
        let mut t = class.to_vec();
        t[BLOCK * block..][..2].copy_from_slice(&number.to_le_bytes());
        t
    };
    let zeros = |blocks: usize| vec![0; BLOCK * blocks];
    // 1 of the whole, whatever the first block's number is and however many sheets there are
    let mut all: Vec<Vec<u8>> = [0, 1, 511, 513, 1_023, 1_025, 17 * BLOCK + 1, MOST - 1].map(|len| vec![0; len]).to_vec();
    all.extend([511, 513, 1_025].map(|len| vec![1; len]));
    // 16, with more than 16 sheets behind it too
    all.extend([1, 255, 256, 65_535].map(|number| numbered(&m1.repeat(2), 0, number)));
    all.extend([numbered(&zeros(20), 0, 1), numbered(&zeros(1), 0, 7), m1[BLOCK..].to_vec()]);
    // 17, and the 16 that are answered
    all.extend([16, 17, 18, 20, 72].map(zeros));
    all.extend([15, 16, 17, 20].map(|sheets| m1.repeat(sheets)));
    all.extend([m2.repeat(16), kind12.repeat(16), [kind12.repeat(15), m6.clone()].concat(), [m6.clone(), kind12.repeat(15)].concat()]);
    // one sheet, two, and a refused one at each place
    all.extend([m1.clone(), m2.clone(), m3.clone(), m6.clone(), kind12.clone(), zeros(1), [&m1[..], &m2, &kind12, &m3, &m6].concat()]);
    all.extend([[&kind12[..], &m1, &m2].concat(), [&m1[..], &kind12, &m2].concat(), [&m1[..], &m2, &kind12].concat(), [&m1[..], &kind12, &zeros(1), &m2].concat()]);
    // a Stop with an abort action at each place, beside other refusals; every sheet of two blocks that can be refused so, 16 at a time
    all.extend([stop.clone(), stop.repeat(16), [&stop[..], &m1, &m2].concat(), [&m1[..], &stop, &m2].concat(), [&m1[..], &m2, &stop].concat(), [&stop[..], &kind12, &stop].concat()]);
    let two_blocks: Vec<Vec<u8>> = flagged_stops().into_iter().filter(|s| s.len() == 2 * BLOCK).collect();
    all.extend(two_blocks.chunks(16).map(<[_]>::concat));
    // glued and cut at each block, numbers of one byte and of two
    let three = [&m1[..], &m2, &m1].concat();
    all.extend([(2, 1), (2, 2), (2, 256), (4, 2), (4, 255), (1, 0), (3, 0), (5, 0), (3, 256), (3, 2)].map(|(block, number)| numbered(&three, block, number)));
    let mut glued = three.clone();
    seal(&mut glued);
    all.extend([glued, numbered(&m1.repeat(17), 2, 2), numbered(&m1.repeat(16), 1, 0)]);
    // one block alone, 70 blocks, 71 and 72 of them; all 16,384 bytes of a sheet written, and another sheet's behind them
    let longest = nops(1_024, "ret t0 t1").bytes();
    all.extend([1, 2, 3, 70, TOO_MANY_BLOCKS, TOO_MANY_BLOCKS + 1].map(|blocks| longer(&m1, blocks)));
    all.extend([[zeros(1), longer(&m1, TOO_MANY_BLOCKS)].concat(), [&longest[..], &m1].concat(), [&m1[..], &longest].concat(), [&longest[..], &zeros(2)].concat()]);
    all.push([random::fullest().bytes(), m2].concat());
    all
}

impl Maker {
    /// A class set: both outputs exact, and one of short, empty and long for either.
    fn class_set(&mut self, rng: &mut Rng, s: &[u8]) {
        let sheets = plain::cut(s).map_or(0, |sheets| sheets.len());
        let (bytes, numbers) = (SHEET_SETS * sheets, SHEET_NUMBERS * sheets);
        let other = match rng.below(6) {
            _ if sheets == 0 => (rng.below(2) * (MOST_SETS - rng.below(600)), rng.below(MOST_NUMBERS)),
            0 | 1 => (bytes - 1, numbers),
            2 | 3 => (bytes, numbers - 1),
            4 => (0, 0),
            _ => (bytes + 1 + rng.below(512), numbers + 1 + rng.below(MOST_NUMBERS - numbers)),
        };
        let rooms = if sheets == 0 { vec![other] } else { vec![(bytes, numbers), other] };
        for (lent, numbers) in rooms {
            let class = plain::live_class(s, lent, numbers, |sheet| {
                plain::check(sheet)?;
                let (status, mut sets) = ask(&mut self.oracle, LIVE, sheet);
                assert_eq!(status, 0, "the original answers {status} to question {LIVE}");
                let taken = sets.split_off(sets.len() - 4);
                Ok((sets, numbers_of(&taken)[0]))
            });
            let (second, written) = given_class(numbers, &class);
            assert!(s.len() <= MOST && written.len() <= MOST && lent <= MOST_SETS && numbers <= MOST_NUMBERS);
            let result = class.map(|sheets| sheets.len() as u32);
            self.cases.push(Case { op: LIVE_CLASS, lent, result, input: s.to_vec(), second, written });
        }
    }

    /// Every edge, then random ones of small sheets.
    pub fn class_sets(&mut self) {
        let mut rng = Rng::new(15);
        for s in edges() {
            self.class_set(&mut rng, &s);
        }
        let pool = Pool::new(&mut rng, 12, |rng| random::Shape { n: 1 + rng.below(8), locals: rng.below(7), labels: rng.below(4), flags: rng.chance(2) });
        for _ in 0..60 {
            let count = classes::count(&mut rng);
            let s = classes::class(&mut rng, count, |rng| pool.sheet(rng));
            self.class_set(&mut rng, &s);
        }
        self.class_sets_made_wrong();
    }

    /// Stored answers that are wrong on purpose.
    fn class_sets_made_wrong(&mut self) {
        let mut wrong = vec![];
        let of = |take: fn(&plain::Class) -> bool| self.cases.iter().filter(move |c| c.op == LIVE_CLASS && take(&class_of(c)));
        // with an accepted sheet in front of a refused one, and the other way round
        let mixed = of(|c| c.iter().flatten().any(|s| s.is_ok()) && c.iter().flatten().any(|s| s.is_err()));
        for c in mixed.clone().step_by(1 + mixed.clone().count() / 2) {
            let Ok(value) = c.result else { continue };
            wrong.push(Case { result: Ok(value + 1), ..c.clone() });
            let (none, _) = given_class(numbers_of(&c.second)[0] as usize, &Err((9, 0)));
            wrong.push(Case { result: Err((9, 0)), second: none, written: vec![], ..c.clone() });
            let class = class_of(c).expect("accepted");
            let (fine, bad) = (class.iter().position(|s| s.is_ok()).expect("mixed"), class.iter().rposition(|s| s.is_err()).expect("mixed"));
            let mut changed = |f: &dyn Fn(&mut Vec<plain::Alone>)| {
                let mut class = class.clone();
                f(&mut class);
                let (second, written) = given_class(numbers_of(&c.second)[0] as usize, &Ok(class));
                wrong.push(Case { second, written, ..c.clone() });
            };
            let sets = |f: fn(&mut Vec<u8>)| move |class: &mut Vec<plain::Alone>| f(&mut class[fine].as_mut().expect("accepted").0);
            changed(&sets(|w| w[0] ^= 1));
            changed(&sets(|w| *w.last_mut().expect("16n bytes") ^= 0x40));
            changed(&sets(|w| w.truncate(w.len() - 1)));
            changed(&sets(|w| w.push(0)));
            changed(&|class| class[fine].as_mut().expect("accepted").1 += 1);
            changed(&|class| class[bad].as_mut().expect_err("refused").0 += 1);
            changed(&|class| class[bad].as_mut().expect_err("refused").1 += 1);
            changed(&|class| class.swap(fine, bad));
            changed(&|class| drop(class.pop()));
            // a count for a refused sheet, and a byte of it
            for (at, x) in [(2, 1), (3, 1)] {
                let mut second = numbers_of(&c.second);
                second[1 + 4 * bad + at] = x;
                let before: usize = class[..bad].iter().flatten().map(|(sets, _)| sets.len()).sum();
                let mut written = c.written.clone();
                written.splice(before..before, (at == 3).then_some(0));
                wrong.push(Case { second: second.iter().flat_map(|x| x.to_le_bytes()).collect(), written, ..c.clone() });
            }
        }
        for number in [1, 9, 16, 17] {
            let Some(c) = self.cases.iter().rev().find(|c| c.op == LIVE_CLASS && c.result == Err((number, 0))) else { continue };
            wrong.extend([Err((number + 1, 0)), Err((number, 1)), Ok(0)].map(|result| Case { result, ..c.clone() }));
        }
        self.cases.extend(wrong.into_iter().map(|c| Case { op: c.op + WRONG, ..c }));
    }
}

/// The answer that a case holds.
fn class_of(c: &Case) -> plain::Class {
    c.result?;
    let (second, mut left) = (numbers_of(&c.second), &c.written[..]);
    let mut sheet = |row: &[u32]| match row[0] {
        0 => Ok((left.split_off(..row[3] as usize).expect("the bytes of each sheet").to_vec(), row[2])),
        number => Err((number as u16, row[1] as u16)),
    };
    Ok(second[1..].chunks(4).map(&mut sheet).collect())
}
