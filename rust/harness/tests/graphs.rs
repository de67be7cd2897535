//! In use, conditional and dying beside the plain reading: the worked graphs, cycles, every refusal and its place, guards.
use harness::{graphs, lent::lend, plain, random::Rng};
use sorzibelu::{conditional, dying, graph, graph::Owned, in_use, Refusal};

fn listed(a: &Owned, b: &Owned, room: usize) -> Result<Vec<u8>, (u16, u16)> {
    let (answer, wrote) = lend(room, room, |count| count as usize, |out| dying(a.graph(), b.graph(), out)).unwrap();
    answer.map(|_| wrote)
}

fn pair(r: Refusal) -> (u16, u16) {
    (r.number(), r.place())
}

#[test]
fn worked_graphs() {
    let chain = [[0, 1, 0], [1, 2, 0]];
    let (m7, m8) = (Owned::new(3, &[2], &chain), Owned::new(3, &[0, 1, 2], &chain));
    assert_eq!(listed(&m7, &Owned::new(3, &[], &chain), 3), Ok(vec![2, 1, 0]));
    assert_eq!(listed(&m8, &Owned::new(3, &[0, 2], &chain), 3), Ok(vec![]));
    // not always child first
    assert_eq!(listed(&Owned::new(3, &[1, 2], &[[0, 1, 0], [0, 2, 0]]), &Owned::default(), 3), Ok(vec![1, 0, 2]));
    let order = Owned::new(4, &[0, 1, 2], &[[1, 0, 0], [2, 0, 0], [2, 1, 0], [3, 1, 0]]);
    assert_eq!(listed(&order, &Owned::default(), 4), Ok(vec![0, 1, 2, 3]));
    // on a cycle, and in a chain of 40 doubled triples, the meanings hold
    let cycle = Owned::new(3, &[2], &[[0, 1, 0], [0, 2, 0], [1, 0, 0]]);
    assert_eq!((0..3).map(|x| in_use(cycle.graph(), x)).collect::<Vec<_>>(), [Ok(true); 3]);
    let own = Owned::new(1, &[], &[[0, 0, 0]]);
    assert_eq!((in_use(own.graph(), 0), conditional(own.graph(), 0)), (Ok(false), Ok(false)));
    assert_eq!(listed(&Owned::new(1, &[0], &[]), &own, 1), Ok(vec![0]));
    assert_eq!(conditional(Owned::new(1, &[], &[[0, 0, 0], [0, 0, 1]]).graph(), 0), Ok(true));
    let doubled: Vec<[u32; 3]> = (0..40).flat_map(|p| [[p, p + 1, 0], [p, p + 1, 1]]).collect();
    assert_eq!(in_use(Owned::new(41, &[], &doubled).graph(), 0), Ok(false));
    assert_eq!(conditional(Owned::new(41, &[], &doubled).graph(), 0), Ok(true));
}

/// The order of the walk: every graph of four nodes without a triple from a node to itself, under every live mask; and the longest paths.
#[test]
fn walks() {
    let pairs: Vec<[u32; 3]> = (0..4).flat_map(|p| (0..4).filter(move |c| p != *c).map(move |c| [p, c, 0])).collect();
    let none = Owned::default();
    for bits in 0..1u32 << pairs.len() {
        let triples: Vec<[u32; 3]> = pairs.iter().enumerate().filter(|(i, _)| bits >> i & 1 == 1).map(|(_, t)| *t).collect();
        for live in 1..16u32 {
            let g = Owned::new(4, &(0..4).filter(|x| live >> x & 1 == 1).collect::<Vec<_>>(), &triples);
            assert_eq!(listed(&g, &none, 4), plain::dying(g.graph(), none.graph(), 4), "{g:?}");
        }
    }
    // a path of 64 nodes, up and down, with 256 triples; the same closed to a cycle, and a node with 63 parents that have it as their only parent
    let path: Vec<u8> = (0..64).collect();
    let times = |p: u32| 4 + u32::from(p < 4);
    let down: Vec<[u32; 3]> = (0..63).flat_map(|p| (0..times(p)).map(move |e| [p, p + 1, e])).collect();
    let up: Vec<[u32; 3]> = (1..64).flat_map(|p| (0..times(p - 1)).map(move |e| [p, p - 1, e])).collect();
    assert_eq!((down.len(), up.len()), (256, 256));
    assert_eq!(listed(&Owned::new(64, &[63], &down), &none, 64), Ok(path.iter().rev().copied().collect()));
    assert_eq!(listed(&Owned::new(64, &[0], &up), &none, 64), Ok(path.clone()));
    let cycle: Vec<[u32; 3]> = (0..64).map(|p| [p, (p + 1) % 64, 0]).collect();
    assert_eq!(listed(&Owned::new(64, &[0], &cycle), &none, 64), Ok(std::iter::once(0).chain((1..64).rev()).collect()));
    let star: Vec<[u32; 3]> = (1..64).map(|c| [0, c, 0]).chain((1..64).map(|p| [p, 0, 0])).collect();
    assert_eq!(listed(&Owned::new(64, &[0], &star), &none, 64), Ok(path));
}

#[test]
fn refusals_and_their_order() {
    let fine = Owned::new(3, &[2], &[[0, 1, 0], [1, 2, 0]]);
    let nodes = |nodes: u32| Owned { nodes, ..fine.clone() };
    let live = Owned { live: 8, ..fine.clone() };
    let triples = |triples: &[u32]| Owned { triples: triples.to_vec(), ..fine.clone() };
    let (short, long) = (triples(&[0, 1]), triples(&[9; 3 * 257]));
    let (zeroth, first, second) = (triples(&[0, 3, 0, 9, 9, 9]), triples(&[0, 1, 0, 0, 1, 0]), triples(&[0, 1, 0, 1, 2, 1, 1, 2, 0]));
    for (a, b, room, wanted) in [
        (&nodes(65), &nodes(65), 0, (12, 0)),
        (&live, &nodes(65), 0, (12, 0)),
        (&fine, &live, 0, (12, 1)),
        (&short, &nodes(u32::MAX), 0, (12, 1)),
        (&short, &long, 0, (13, 300)),
        (&long, &fine, 0, (13, 300)),
        (&first, &short, 0, (13, 1)),
        (&zeroth, &zeroth, 0, (13, 0)),
        (&second, &fine, 0, (13, 2)),
        (&fine, &short, 0, (13, 1_300)),
        (&fine, &long, 0, (13, 1_300)),
        (&fine, &zeroth, 0, (13, 1_000)),
        (&fine, &first, 0, (13, 1_001)),
        (&fine, &second, 2, (13, 1_002)),
        (&fine, &fine, 2, (9, 0)),
        (&fine, &fine, 0, (9, 0)),
    ] {
        assert_eq!(listed(a, b, room), Err(wanted), "{a:?} {b:?}");
        assert_eq!(plain::dying(a.graph(), b.graph(), room), Err(wanted), "{a:?} {b:?}");
    }
    for (g, node, wanted) in [(&nodes(65), 99, (12, 0)), (&live, 99, (12, 0)), (&short, 99, (13, 300)), (&first, 99, (13, 1)), (&fine, 3, (14, 0)), (&fine, u32::MAX, (14, 0))] {
        assert_eq!(in_use(g.graph(), node).map_err(pair), Err(wanted));
        assert_eq!(conditional(g.graph(), node).map_err(pair), Err(wanted));
    }
    // 64 nodes, 256 triples, all nodes live
    let full: Vec<u32> = (0..256).flat_map(|i| [i / 4, i / 4, i % 4]).collect();
    let full = Owned { nodes: 64, live: u64::MAX, triples: full };
    assert_eq!(listed(&full, &Owned::default(), 64).map(|l| l.len()), Ok(64));
    assert_eq!(listed(&full, &full, 63), Err((9, 0)));
}

#[test]
fn random_graphs() {
    let mut rng = Rng::new(8);
    for i in 0..6_000 {
        let (mut a, mut b) = graphs::pair(&mut rng, i % 2 == 0);
        if i % 3 == 0 {
            let which = if rng.chance(2) { &mut a } else { &mut b };
            graphs::broken(&mut rng, which);
        }
        let node = rng.below(66) as u32;
        assert_eq!(in_use(a.graph(), node).map_err(pair), plain::in_use(a.graph(), node), "{a:?} {node}");
        assert_eq!(conditional(a.graph(), node).map_err(pair), plain::conditional(a.graph(), node), "{a:?} {node}");
        for room in [a.nodes.min(64) as usize, rng.below(70)] {
            assert_eq!(listed(&a, &b, room), plain::dying(a.graph(), b.graph(), room), "{a:?} {b:?}");
        }
    }
}

#[test]
fn texts_give_the_graphs_again() {
    let mut rng = Rng::new(21);
    for i in 0..2_000 {
        let (mut a, mut b) = graphs::pair(&mut rng, i % 2 == 0);
        if i % 3 == 0 {
            let which = if rng.chance(2) { &mut a } else { &mut b };
            graphs::broken(&mut rng, which);
        }
        let one = graph::read(&graph::write(&a)).unwrap();
        assert_eq!((one.this(), one.next()), (&a, None));
        let two = graph::read(&graph::write_pair(&a, &b)).unwrap();
        assert_eq!((two.this(), two.next()), (&a, Some(&b)));
        // a refusal belongs to a line of its own graph
        let second = graph::write(&a).lines().count() + 2;
        if let Err(r) = dying(a.graph(), b.graph(), &mut [0; 64]) {
            let next = r.place() >= 1_000 || r.number() == 12 && r.place() == 1;
            assert_eq!(two.fault(r).line >= second, next, "{r} {}", graph::write_pair(&a, &b));
        }
    }
}

#[test]
fn faults_of_graph_texts() {
    for (text, says) in [
        ("", "line 1: the graph has no line 'nodes N'"),
        ("live 1\n", "line 1: the graph has no line 'nodes N'"),
        ("nodes 2\nnodes 2\n", "line 2: 'nodes' stands in line 1 already"),
        ("nodes 2\nlive 64\n", "line 2: 64 can be no live node: there are 64 nodes at most"),
        ("nodes 4294967296\n", "line 1: '4294967296' is too large for a number of nodes"),
        ("nodes 2\n0 1\n", "line 2: a triple has three numbers: parent, child, edge"),
        ("nodes 2\n0,1,0,2\n", "line 2: '0,1,0,2' where at most 3 numbers can stand"),
        ("nodes 2\ntriple 0 x 0\n", "line 2: 'x' is not a node or an edge"),
        ("nodes 2\ntripel 0 1 0\n", "line 2: 'tripel' where nodes, live, triple, this or next should stand: did you mean triple?"),
        ("nodes 2\nrest 0\n0 1 0\n", "line 3: a triple behind the 'rest' in line 2"),
        ("nodes 2\nrest 0\nrest 1\n", "line 3: 'rest' is what is left of a last triple, one or two numbers, once"),
        ("this\nnodes 2\n", "line 2: no 'next': a pair has both 'this' and 'next'"),
        ("this\nnodes 2\nnext\n", "line 3: 'next' has no line 'nodes N'"),
        ("nodes 2\nthis\nnodes 2\nnext\nnodes 2\n", "line 1: a line of a graph before 'this' or 'next'"),
        ("this\nnodes 2\nthis\n", "line 3: 'this' stands in line 1 already\nline 3: no 'next': a pair has both 'this' and 'next'"),
        ("nodes 2\nlive x\n0 1\n", "line 2: 'x' is not a node\nline 3: a triple has three numbers: parent, child, edge"),
    ] {
        assert_eq!(graph::read(text).unwrap_err().to_string(), says, "{text:?}");
    }
    let chain = Owned::new(3, &[2], &[[0, 1, 0], [1, 2, 0]]);
    let free = "\u{feff}// a chain\r\n0,1,0 // first\r\nlive 2\r\n\r\ntriple 1 2 0\r\nnodes 3\r\n";
    assert_eq!(graph::read(free).unwrap().this(), &chain);
    for text in ["x ".repeat(10 << 20), "prose\n".repeat(1_000_000), "0 ".repeat(10 << 20), format!("nodes {}", "9".repeat(20 << 20))] {
        assert!(graph::read(&text).unwrap_err().to_string().len() < 400);
    }
    let long = graph::read(&("nodes 1\n".to_string() + &"0 0 0\n".repeat(1_000_000))).unwrap();
    assert_eq!(graph::page(long.this()).unwrap_err().place(), 300);
}

/// The worked graphs, their texts and their pages.
#[test]
fn stored_graph_pages() {
    let dir = concat!(env!("CARGO_MANIFEST_DIR"), "/../../sheets/");
    for (m, dying) in [("m7", "dying\n2: live here, in the next graph neither live nor in use\n1: parent of 2"), ("m8", "dying\nnone\n")] {
        let text = std::fs::read_to_string(format!("{dir}{m}.txt")).unwrap();
        let pair = graph::read(&text).unwrap();
        let page = graph::pair_page(pair.this(), pair.next().unwrap()).unwrap();
        assert!(page.contains(dying), "{page}");
        assert!(text.ends_with(&graph::write_pair(pair.this(), pair.next().unwrap())));
        assert_eq!(page, std::fs::read_to_string(format!("{dir}{m}.page")).unwrap(), "{m}");
    }
}

/// Each yes has a path that is one, each dying node a reason; the answers are those of the plain reading.
#[test]
fn pages_of_random_graphs() {
    let mut rng = Rng::new(22);
    for i in 0..1_500 {
        let (mut a, b) = graphs::pair(&mut rng, i % 2 == 0);
        if i % 7 == 0 {
            graphs::broken(&mut rng, &mut a);
        }
        let page = match graph::page(&a) {
            Err(r) => {
                assert_eq!(plain::check_graphs(&[a.graph()]), Err(pair(r)));
                continue;
            }
            Ok(page) => page,
        };
        let (used, conditional) = page.split_once("\nin use\n").unwrap().1.split_once("\nconditional\n").unwrap();
        let has = |p: u32, c: u32| a.triples.chunks(3).any(|t| t[0] == p && t[1] == c);
        for (x, (l, c)) in used.lines().zip(conditional.lines()).enumerate() {
            let x = x as u32;
            assert_eq!(l != format!("{x}: no"), plain::in_use(a.graph(), x).unwrap());
            assert_eq!(c != format!("{x}: no"), plain::conditional(a.graph(), x).unwrap());
            for line in [l, c].into_iter().filter(|l| l.contains("->")) {
                let (path, last) = line.split_once(": yes, ").unwrap().1.split_once(", and ").unwrap();
                let path: Vec<u32> = path.split(" -> ").map(|n| n.parse().unwrap()).collect();
                assert!(path[0] == x && path.windows(2).all(|w| has(w[0], w[1])), "{line}");
                assert!(last.starts_with(&format!("{} is live", path[path.len() - 1])) || last.ends_with(&format!("lead to {}", path[path.len() - 1])), "{line}");
            }
        }
        let page = graph::pair_page(&a, &b).unwrap();
        let listed: Vec<u8> = page.split_once("\ndying\n").unwrap().1.lines().map_while(|l| l.split_once(": ")?.0.parse().ok()).collect();
        assert_eq!(Ok(listed), plain::dying(a.graph(), b.graph(), 64));
        // no answer without a reason
        assert!(page.split_once("\ndying\n").unwrap().1.lines().all(|l| l.is_empty() || l == "none" || l == "staying" || l.contains(": ")), "{page}");
    }
}
