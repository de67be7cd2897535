//! Class sets: what is refused of the whole and in which order, the room that is asked for, glued and cut sheets, the longest ones; random class sets beside the
//! plain reading and beside live alone.
use harness::{
    Bytes,
    classes::{self, Pool, TOO_MANY_BLOCKS, longer},
    lent::lend_class,
    plain::{self, SHEET_NUMBERS, SHEET_SETS},
    random,
    random::Rng,
};
use sorzibelu::{class_sheets, live, live_class, sheet::*};
use std::fs;

fn stored(name: &str) -> Vec<u8> {
    fs::read(format!("{}/../../sheets/{name}", env!("CARGO_MANIFEST_DIR"))).unwrap()
}

/// A block with this number, and nothing else in it.
fn block(number: u16) -> Vec<u8> {
    let mut b = vec![0; BLOCK];
    b[..2].copy_from_slice(&number.to_le_bytes());
    b
}

/// The three numbers of each sheet, or the refusal of the whole, with enough lent for 20 sheets; all that is lent is held against the plain reading.
fn numbers(class: &[u8]) -> Result<Vec<[u32; 3]>, (u16, u16)> {
    let (bytes, numbers) = (20 * SHEET_SETS, 20 * SHEET_NUMBERS);
    let wanted = plain::live_class(class, bytes, numbers, plain::alone);
    lend_class(bytes, numbers, class.len(), &wanted, |sets, answers| live_class(class, sets, answers)).unwrap();
    wanted.map(|sheets| sheets.into_iter().map(|s| s.map_or_else(|(number, place)| [number.into(), place.into(), 0], |(_, taken)| [0, 0, taken])).collect())
}

/// The worked sheets end to end; a refused one between them; the same sheet twice.
#[test]
fn worked_sheets() {
    let [m1, m2, m3, m6, kind12, stop] = ["m1", "m2", "m3", "m6", "kind12", "stop"].map(|m| stored(&format!("{m}.sheet")));
    assert_eq!(stored("class.sheets"), [&m1[..], &m2, &kind12, &m3, &m6].concat());
    assert_eq!(numbers(&stored("class.sheets")), Ok(vec![[0, 0, 3], [0, 0, 7], [4, 0, 0], [0, 0, 7], [0, 0, 6]]));
    assert_eq!(numbers(&[&m2[..], &m2].concat()), Ok(vec![[0, 0, 7]; 2]));
    assert_eq!(numbers(&m1), Ok(vec![[0, 0, 3]]));
    assert_eq!(numbers(&kind12.repeat(16)), Ok(vec![[4, 0, 0]; 16]));
    assert_eq!(numbers(&[&m1[..], &stop, &kind12, &m2, &stop].concat()), Ok(vec![[0, 0, 3], [18, 3, 0], [4, 0, 0], [0, 0, 7], [18, 3, 0]]));
    assert_eq!(numbers(&stop.repeat(16)), Ok(vec![[18, 3, 0]; 16]));
}

/// A heading's number that is not 0 glues its sheet onto the one before it; the first one's is 16. A later block that is numbered 0 cuts its sheet in two.
#[test]
fn glued_and_cut() {
    let [m1, m2] = ["m1", "m2"].map(|m| stored(&format!("{m}.sheet")));
    let class = [&m1[..], &m2, &m1].concat();
    let with = |block: usize, number: u16| {
        let mut t = class.clone();
        t[BLOCK * block..][..2].copy_from_slice(&number.to_le_bytes());
        numbers(&t)
    };
    assert_eq!(with(0, 0), Ok(vec![[0, 0, 3], [0, 0, 7], [0, 0, 3]]));
    // M1 and M2 are one sheet of four blocks, whose third is numbered wrong
    assert_eq!(with(2, 5), Ok(vec![[2, 2, 0], [0, 0, 3]]));
    assert_eq!(with(2, 256), Ok(vec![[2, 2, 0], [0, 0, 3]]));
    // numbered as its place is, with its check: a later block's bytes 4 to 31 should be zero
    let mut t = class.clone();
    seal(&mut t[..4 * BLOCK]);
    assert_eq!(numbers(&t), Ok(vec![[2, 2, 0], [0, 0, 3]]));
    assert_eq!(with(4, 1), Ok(vec![[0, 0, 3], [2, 2, 0]]));
    for number in [1, 255, 256, 65_535] {
        assert_eq!(with(0, number), Err((16, 0)));
    }
    // M2 is two blocks, each alone
    assert_eq!(with(3, 0), Ok(vec![[0, 0, 3], [1, 0, 0], [1, 0, 0], [0, 0, 3]]));
    // numbers of two bytes: 256 and 65,280 are not 0
    for number in [2, 256, 65_280] {
        assert_eq!(with(3, number), Ok(vec![[0, 0, 3], [2, 1, 0], [0, 0, 3]]));
    }
}

/// 1, then 16, then 17, then 9, each place 0.
#[test]
fn refusals_of_the_whole() {
    for len in [0, 1, 511, 513, 1_023, 1_025, 35_841, 20 * BLOCK - 1] {
        // first blocks numbered 0 and not: 1 comes first
        for number in [0, 7] {
            assert_eq!(numbers(&[number; 35_841][..len]), Err((1, 0)), "{len}");
        }
    }
    assert_eq!(numbers(&block(1)), Err((16, 0)));
    // 20 blocks numbered 0 behind one that is not: 16 before 17; 17 and more sheets: 17
    assert_eq!(numbers(&[block(1), vec![0; 20 * BLOCK]].concat()), Err((16, 0)));
    for sheets in [17, 18, 20, 1_000] {
        assert_eq!(numbers(&vec![0; sheets * BLOCK]), Err((17, 0)));
    }
    assert_eq!(numbers(&[0; 16 * BLOCK]), Ok(vec![[1, 0, 0]; 16]));
    assert_eq!(numbers(&stored("m1.sheet").repeat(16)), Ok(vec![[0, 0, 3]; 16]));
    assert_eq!(numbers(&stored("m1.sheet").repeat(17)), Err((17, 0)));
    // 17, 16 and 1 before 9
    for (class, refused) in [(vec![0; 17 * BLOCK], (17, 0)), (block(9), (16, 0)), (vec![0; 17 * BLOCK + 1], (1, 0)), (vec![], (1, 0))] {
        lend_class(0, 0, 1, &Err(refused), |sets, answers| live_class(&class, sets, answers)).unwrap();
    }
}

/// Either output exact, one short, empty or long, for accepted and for refused sheets.
#[test]
fn rooms() {
    let m2 = stored("m2.sheet");
    for class in [m2.clone(), m2.repeat(3), [&m2[..], &[0; BLOCK]].concat(), vec![0; 2 * BLOCK], m2.repeat(16), vec![0; 16 * BLOCK]] {
        let sheets = plain::sheets(&class).len();
        let (bytes, numbers) = (SHEET_SETS * sheets, SHEET_NUMBERS * sheets);
        let around = |exact: usize, each: usize, more: usize| [0, exact - each, exact - 1, exact, exact + 1, exact + more];
        for b in around(bytes, SHEET_SETS, 600) {
            for n in around(numbers, SHEET_NUMBERS, 50) {
                let wanted = plain::live_class(&class, b, n, plain::alone);
                assert_eq!(wanted.is_err(), b < bytes || n < numbers);
                lend_class(b, n, b + n, &wanted, |sets, answers| live_class(&class, sets, answers)).unwrap();
            }
        }
    }
}

/// 16 of the longest sheets, sheets of one block and of 71 between them, and many thousands of blocks.
#[test]
fn limits() {
    let fullest = random::fullest().bytes();
    assert_eq!(fullest.len(), MAX_BYTES);
    let taken = live(&fullest, &mut [0; SHEET_SETS]).unwrap();
    assert_eq!(numbers(&fullest.repeat(16)), Ok(vec![[0, 0, taken]; 16]));
    let m1 = stored("m1.sheet");
    let (alone, long) = (longer(&m1, 1), longer(&fullest, TOO_MANY_BLOCKS));
    let class = [&m1[..], &long, &m1, &alone, &m1, &longer(&m1, 70), &m1].concat();
    assert_eq!(numbers(&class), Ok(vec![[0, 0, 3], [1, 0, 0], [0, 0, 3], [1, 0, 0], [0, 0, 3], [2, 1, 0], [0, 0, 3]]));
    // M1's heading and empty blocks, numbered and with their checks: more of them than it asks for are 3, up to 70 blocks in all
    for (blocks, number) in [(1, 1), (2, 4), (3, 3), (70, 3), (71, 1), (72, 1)] {
        let mut t = longer(&m1, blocks);
        seal(&mut t);
        assert_eq!(numbers(&[&m1[..], &t].concat()), Ok(vec![[0, 0, 3], [number, 0, 0]]));
    }
    // more blocks than 16 bits count, in one sheet of the class set and in front of another
    assert_eq!(numbers(&longer(&m1, 20_000)), Ok(vec![[1, 0, 0]]));
    assert_eq!(numbers(&[&m1[..], &longer(&m1, 70_000), &m1].concat()), Ok(vec![[0, 0, 3], [1, 0, 0], [0, 0, 3]]));
    assert_eq!(numbers(&vec![0; 20_000 * BLOCK]), Err((17, 0)));
}

/// Class sets of 0 to 20 sheets: each answer is the plain reading's, and that of live alone. The test fails if something that can happen was met too seldom.
#[test]
fn random_class_sets() {
    let mut rng = Rng::new(81);
    let pool = Pool::new(&mut rng, 40, random::shape);
    // how often sheet k was accepted and got each number; 1, 9, 16 and 17 of the whole, 9 by bytes and by numbers alone; what else was met
    let (mut at, mut whole, mut short) = ([[0; 10]; 16], [0; 18], [0; 3]);
    let (mut glued, mut cut, mut sixteen) = (0, 0, 0);
    for turn in 0..1_400 {
        let count = classes::count(&mut rng);
        let class = classes::class(&mut rng, count, |rng| pool.sheet(rng));
        let sheets = plain::cut(&class).map_or(0, |sheets| sheets.len());
        let (bytes, numbers) = (SHEET_SETS * sheets, SHEET_NUMBERS * sheets);
        let less = |rng: &mut Rng, x: usize| x.saturating_sub([1, 1, 3, SHEET_SETS, x][rng.below(5)]);
        let way = rng.below(8);
        let b = if way == 0 || way == 2 { less(&mut rng, bytes) } else { bytes + [0, 0, 1, 700][rng.below(4)] };
        let n = if way == 1 || way == 2 { less(&mut rng, numbers) } else { numbers + [0, 0, 1, 60][rng.below(4)] };
        let wanted = plain::live_class(&class, b, n, plain::alone);
        lend_class(b, n, turn, &wanted, |sets, answers| live_class(&class, sets, answers)).unwrap_or_else(|e| panic!("turn {turn}: {e}"));
        match &wanted {
            Err((number, _)) => whole[*number as usize] += 1,
            Ok(all) => {
                assert_eq!(class_sheets(&class), plain::sheets(&class));
                glued += usize::from(all.len() < count);
                cut += usize::from(all.len() > count);
                sixteen += usize::from(all.len() == 16);
                for (k, (sheet, got)) in class_sheets(&class).iter().zip(all).enumerate() {
                    let mut sets = vec![7; SHEET_SETS];
                    let alone = live(sheet, &mut sets).map_err(|r| (r.number(), r.place()));
                    assert_eq!(alone.map(|taken| (sets[..got.as_ref().map_or(0, |g| g.0.len())].to_vec(), taken)), *got);
                    at[k][got.as_ref().map_or_else(|r| plain::rank(r.0), |_| 0)] += 1;
                }
            }
        }
        if wanted == Err((9, 0)) {
            // too few bytes, too few numbers, or both
            short[2 * usize::from(n < numbers) + usize::from(b < bytes) - 1] += 1;
        }
    }
    assert!(at.iter().flatten().all(|m| *m >= 5), "{at:?}");
    assert!([1, 9, 16, 17].iter().all(|number| whole[*number] >= 20), "{whole:?}");
    assert!(short.iter().all(|m| *m >= 20) && glued >= 20 && cut >= 20 && sixteen >= 50, "{short:?} {glued} {cut} {sixteen}");
}

/// What a sheet gets at a place depends on nothing else: not on the other sheets, not on what was lent.
#[test]
fn the_same_sheet_at_the_same_place() {
    let mut rng = Rng::new(82);
    let pool = Pool::new(&mut rng, 40, random::shape);
    for turn in 0..300 {
        let (sheet, k) = (pool.sheet(&mut rng), rng.below(16));
        let mut answer = |filling: u8| {
            let mut sheets: Vec<&[u8]> = (0..k).map(|_| pool.sheet(&mut rng)).collect();
            sheets.push(sheet);
            sheets.extend((0..rng.below(16 - k)).map(|_| pool.sheet(&mut rng)));
            let (mut sets, mut answers) = (vec![filling; SHEET_SETS * sheets.len()], vec![filling.into(); SHEET_NUMBERS * sheets.len()]);
            assert_eq!(live_class(&sheets.concat(), &mut sets, &mut answers), Ok(sheets.len() as u32));
            let numbers = answers[SHEET_NUMBERS * k..][..SHEET_NUMBERS].to_vec();
            let n = if numbers[0] == 0 { Sheet::of_bytes(sheet).code.len() } else { 0 };
            let (bytes, rest) = sets[SHEET_SETS * k..][..SHEET_SETS].split_at(16 * n);
            assert!(rest.iter().all(|x| *x == filling));
            (numbers, bytes.to_vec())
        };
        assert_eq!(answer(turn as u8), answer(!turn as u8));
    }
}
