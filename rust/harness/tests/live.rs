//! Flow and live against the plain reading: random sheets, buffers exact, short and long with guard bytes.
use harness::{
    plain::{self, rank},
    random,
    random::Rng,
    Bytes,
};
use sorzibelu::{check, flow, live, text, Refusal};

const SHORT: Result<u32, Refusal> = Err(Refusal::ShortOutput);

#[test]
fn random_sheets() {
    let mut rng = Rng::new(4);
    for _ in 0..2_000 {
        let shape = random::shape(&mut rng);
        let sheet = random::sheet(&mut rng, shape);
        let (s, n) = (sheet.bytes(), sheet.code.len());

        let table = plain::flow(&sheet.code);
        let mut out = vec![7u16; table.len() + rng.below(9)];
        assert_eq!(flow(&s, &mut out), Ok(table.len() as u32 / 6));
        assert_eq!(out[..table.len()], table);
        assert!(out[table.len()..].iter().all(|x| *x == 7));
        // one successor key or two, or 1 alone at an exit
        assert!(out[..table.len()].chunks(6).all(|row| row[3] != 0 && row[5] == 0 && (row[3] != 1 || row[4] == 0) && row[4] != 1), "{}", text::list(&sheet));
        let mut out = vec![7u16; table.len() - 1];
        assert_eq!(flow(&s, &mut out), SHORT);
        assert!(out.iter().all(|x| *x == 7));

        let (sets, taken) = plain::live(&sheet.code);
        let bytes: Vec<u8> = sets.iter().flat_map(|(b, a)| [b.to_le_bytes(), a.to_le_bytes()].concat()).collect();
        let mut out = vec![7u8; 16 * n + rng.below(9)];
        assert_eq!(live(&s, &mut out), Ok(taken));
        assert_eq!(out[..16 * n], bytes);
        assert!(out[16 * n..].iter().all(|x| *x == 7));
        let mut out = vec![7u8; 16 * n - 1];
        assert_eq!(live(&s, &mut out), SHORT);
        assert!(out.iter().all(|x| *x == 7));
    }
}

#[test]
fn refused_sheets_change_nothing() {
    let mut rng = Rng::new(5);
    let mut met = [0; 10];
    for _ in 0..300 {
        let shape = random::shape(&mut rng);
        let s = random::sheet(&mut rng, shape).bytes();
        for _ in 0..10 {
            let t = random::damage(&mut rng, &s);
            let Err(r) = check(&t) else { continue };
            met[rank(r.number())] += 1;
            let (mut table, mut sets) = (vec![7u16; rng.below(7000)], vec![7u8; rng.below(17000)]);
            assert_eq!(flow(&t, &mut table), Err(r));
            assert_eq!(live(&t, &mut sets), Err(r));
            assert!(table.iter().all(|x| *x == 7) && sets.iter().all(|x| *x == 7));
        }
    }
    assert!(met[1..].iter().all(|m| *m > 5) && met[rank(18)] >= 100, "{met:?}");
}

#[test]
fn the_fullest_work_list() {
    let sheet = random::fullest();
    let mut out = vec![0; 16 * 1024];
    let taken = live(&sheet.bytes(), &mut out).unwrap();
    assert_eq!(taken, plain::live(&sheet.code).1);
    assert_eq!(taken, 66_341);
}
