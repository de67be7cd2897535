//! Answers as values beside the lent ones, conversions in place of panics, and refusals in words, on random sheets and graphs.
use harness::{classes, graphs, plain, random, random::Rng, Bytes};
use sorzibelu::{graph, sheet::*, *};

#[test]
fn values_are_what_was_lent() {
    let mut rng = Rng::new(21);
    for i in 0..600 {
        let shape = random::shape(&mut rng);
        let mut s = random::sheet(&mut rng, shape).bytes();
        if i % 3 == 2 {
            s = random::damage(&mut rng, &s);
        }
        let mut table = vec![0; FLOW_NUMBERS];
        let lent = flow(&s, &mut table).map(|n| table[..6 * n as usize].to_vec());
        assert_eq!(blocks(&s).map(|b| b.iter().flat_map(|b| [b.lower, b.upper, b.key, b.next[0], b.next[1], b.next[2]]).collect::<Vec<_>>()), lent);
        let mut sets = vec![0; LIVE_BYTES];
        let taken = live(&s, &mut sets);
        match live_sets(&s) {
            Ok(live) => {
                assert_eq!(taken, Ok(live.taken));
                assert_eq!(live.sets.len(), Sheet::of_bytes(&s).code.len());
                let bytes: Vec<u8> = live.sets.iter().flat_map(|x| [x.before.to_le_bytes(), x.after.to_le_bytes()]).flatten().collect();
                assert_eq!(sets[..bytes.len()], bytes);
            }
            Err(r) => assert_eq!(taken, Err(r)),
        }
        let mut out = vec![0; MAX_SHEET_BYTES];
        assert_eq!(rewritten(&s), rewrite(&s, &mut out).map(|n| out[..n as usize].to_vec()));
        assert_eq!(renumbered(&s), renumber(&s, &mut out).map(|n| out[..n as usize].to_vec()));
        assert_eq!(never_named(&s), check(&s).map(|()| plain::never_named(&Sheet::of_bytes(&s).code)));
        assert_eq!(Sheet::try_from(&s[..]).map(|sheet| sheet.bytes()), check(&s).map(|()| s.clone()));
        let (a, b) = graphs::pair(&mut rng, i % 2 == 0);
        let mut out = [0; MAX_NODES];
        assert_eq!(dying_nodes(a.graph(), b.graph()), dying(a.graph(), b.graph(), &mut out).map(|n| out[..n as usize].to_vec()));
    }
}

#[test]
fn values_of_class_sets() {
    let mut rng = Rng::new(25);
    let pool = classes::Pool::new(&mut rng, 10, random::shape);
    let mut refused = [0; 19];
    for _ in 0..200 {
        let count = classes::count(&mut rng);
        let class = classes::class(&mut rng, count, |rng| pool.sheet(rng));
        assert_eq!(class_sheets(&class).concat(), class);
        match class_live_sets(&class) {
            // each sheet's is what it is alone
            Ok(all) => assert_eq!(all, class_sheets(&class).into_iter().map(live_sets).collect::<Vec<_>>()),
            Err(r) => {
                refused[r.number() as usize] += 1;
                assert_eq!(live_class(&class, &mut vec![0; MAX_CLASS_SHEETS * LIVE_BYTES], &mut [0; MAX_CLASS_SHEETS * NUMBERS_PER_SHEET]), Err(r));
                let said = class_why(&class, r);
                assert!(!is_general(r, &said) && said.lines().count() == 1, "{r}: {said}");
            }
        }
        (0..20).for_each(|number| drop(class_why(&class, Refusal::of(number, rng.number() as u16))));
    }
    assert!([1, 16, 17].iter().all(|number| refused[*number] > 5), "{refused:?}");
    // blocks in front of the first that is numbered 0, and a rest that is no whole block
    let bytes = [[1; 512], [0; 512], [1; 512]].concat();
    let lengths = |s: &[u8]| class_sheets(s).iter().map(|part| part.len()).collect::<Vec<_>>();
    assert_eq!((lengths(&bytes), lengths(&bytes[..1_535]), lengths(&bytes[..1_023])), (vec![512, 1_024], vec![512, 1_023], vec![1_023]));
    assert_eq!((lengths(&[]), lengths(&[0]), lengths(&[7; 511]), lengths(&[0; 1_025])), (vec![], vec![1], vec![511], vec![512, 513]));
}

#[test]
fn what_has_no_room_is_an_error() {
    let nine = vec![0; 9];
    let (dsts, srcs) = (Instruction { dsts: nine.clone(), ..Instruction::new(CALL) }, Instruction { srcs: nine, ..Instruction::new(CALL) });
    assert_eq!(<[u8; RECORD]>::try_from(&dsts), Err(TooLong::Destinations(9)));
    assert_eq!(<[u8; RECORD]>::try_from(&srcs), Err(TooLong::Sources(9)));
    assert_eq!(Vec::try_from(&Sheet { code: vec![Instruction::new(NOP), dsts], ..Default::default() }), Err(TooLong::Destinations(9)));
    assert_eq!(Vec::try_from(&Sheet { code: vec![Instruction::new(NOP); 1_025], ..Default::default() }), Err(TooLong::Instructions(1_025)));
    assert!(Vec::try_from(&Sheet { code: vec![Instruction::new(NOP); 1_024], ..Default::default() }).is_ok());
    let mut rng = Rng::new(22);
    for _ in 0..2_000 {
        // any record at all
        let mut r = [0; RECORD];
        r.iter_mut().for_each(|x| *x = rng.number() as u8 % if rng.chance(4) { 255 } else { 10 });
        match Instruction::try_from(&r) {
            Ok(i) => assert!(i.dsts.len() == r[8] as usize && i.srcs.len() == r[9] as usize && <[u8; RECORD]>::try_from(&i).is_ok()),
            Err(e) => assert!(r[8] > 8 || r[9] > 8, "{e}"),
        }
    }
}

/// The words of the table's row, which are said where nothing better is known.
fn is_general(refusal: Refusal, said: &str) -> bool {
    refusal.to_string().ends_with(said)
}

#[test]
fn every_refused_sheet_has_its_own_words() {
    let mut rng = Rng::new(23);
    let mut met = [0; 10];
    for _ in 0..600 {
        let shape = random::shape(&mut rng);
        let s = random::sheet(&mut rng, shape).bytes();
        for _ in 0..10 {
            let t = random::damage(&mut rng, &s);
            if let Err(r) = check(&t) {
                met[plain::rank(r.number())] += 1;
                let said = why(&t, r);
                assert!(!is_general(r, &said) && said.lines().count() == 1, "{r}: {said}");
                // and any other refusal of the same bytes is answered somehow
                (0..20).for_each(|number| drop(why(&t, Refusal::of(number, rng.number() as u16))));
            }
        }
    }
    assert!(met[1..].iter().all(|n| *n > 5), "{met:?}");
    for (name, sub) in [("IsParent", 19), ("WriteBack", 20)] {
        let hides = Instruction { sub, payload: 7, ..Instruction::new(CALL) };
        let s = Sheet { code: vec![Instruction::new(NOP), hides, Instruction::new(RET)], ..Default::default() }.bytes();
        let said = why(&s, renumbered(&s).unwrap_err());
        assert_eq!(said, format!("offset 1: the {name} hides a local in its payload, 7, where renumbering does not reach it"));
    }
}

#[test]
fn every_refused_graph_has_its_own_words() {
    let mut rng = Rng::new(24);
    let mut met = [0; 15];
    for i in 0..6_000 {
        let (mut a, mut b) = graphs::pair(&mut rng, i % 2 == 0);
        let which = if rng.chance(2) { &mut a } else { &mut b };
        graphs::broken(&mut rng, which);
        let both = [a.graph(), b.graph()];
        let node = rng.below(70) as u32;
        let asked = [(&both[..], None, dying_nodes(both[0], both[1]).err()), (&both[..1], Some(node), in_use(both[0], node).err())];
        for (graphs, node, refused) in asked {
            let Some(r) = refused else { continue };
            met[r.number() as usize] += 1;
            let said = graph::why(graphs, node, r);
            assert!(!is_general(r, &said) && said.lines().count() == 1, "{r}: {said}");
            (0..20).for_each(|number| drop(graph::why(graphs, node, Refusal::of(number, rng.number() as u16))));
        }
    }
    assert!(met[12..].iter().all(|n| *n > 50), "{met:?}");
}

#[test]
fn a_refusal_is_its_number_and_place() {
    for number in 1..=20 {
        for place in [0, 1, 300, 1_023, 1_300] {
            let r = Refusal::of(number, place);
            let has_place = !matches!(number, 1 | 3 | 9 | 10 | 11 | 14 | 16 | 17);
            assert_eq!((r.number(), r.place()), (number, if has_place { place } else { 0 }));
            assert_eq!(Refusal::of(r.number(), r.place()), r);
        }
    }
}
