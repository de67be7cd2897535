//! The borrow graphs of a sheet, by numbers of nodes and edges (E10).
use crate::{
    answer::{no, Answer},
    borrow_analysis::{oracle_access as borrow, BorrowInfo},
    borrows::{borrows, Borrows},
    bytes::{mask, p32},
    sheet::Sheet,
    stackless_bytecode::{BorrowEdge, BorrowNode},
};
use move_binary_format::file_format::CodeOffset;

/// Node numbers: non-references first, then references, each by index.
pub fn ranks(sheet: &Sheet) -> Vec<u32> {
    let mut res = vec![0; sheet.locals];
    let values = (0..sheet.locals).filter(|i| !sheet.is_ref(*i));
    let refs = (0..sheet.locals).filter(|i| sheet.is_ref(*i));
    for (rank, i) in values.chain(refs).enumerate() {
        res[i] = rank as u32;
    }
    res
}

pub fn node_no(sheet: &Sheet, ranks: &[u32], node: &BorrowNode) -> u32 {
    match node {
        BorrowNode::LocalRoot(i) => {
            assert!(!sheet.is_ref(*i));
            ranks[*i]
        }
        BorrowNode::Reference(i) => {
            assert!(sheet.is_ref(*i));
            ranks[*i]
        }
        other => panic!("node {:?}", other),
    }
}

pub fn edge_no(edge: &BorrowEdge) -> u32 {
    match edge {
        BorrowEdge::Direct => 0,
        BorrowEdge::Field(_, f) => *f as u32,
        other => panic!("edge {:?}", other),
    }
}

fn triples_no(sheet: &Sheet, ranks: &[u32], info: &BorrowInfo) -> Vec<[u32; 3]> {
    let res: Vec<[u32; 3]> = borrow::triples(info)
        .iter()
        .map(|(p, c, e)| {
            [
                node_no(sheet, ranks, p),
                node_no(sheet, ranks, c),
                edge_no(e),
            ]
        })
        .collect();
    assert!(res.windows(2).all(|w| w[0] < w[1]), "triples ascending");
    res
}

pub fn borrow_head(b: &Borrows) -> Vec<u8> {
    let mut out = vec![b.flags];
    p32(&mut out, b.blocks);
    p32(&mut out, b.max_triples);
    out
}

fn borrow_row(out: &mut Vec<u8>, sheet: &Sheet, ranks: &[u32], b: &Borrows, at: u32, wide: bool) {
    let info = match b.map.get(&(at as CodeOffset)) {
        None => {
            out.push(0);
            return;
        }
        Some(info) => info,
    };
    out.push(1);
    for i in [&info.before, &info.after] {
        for nodes in [borrow::live(i), borrow::moved(i)] {
            mask(
                out,
                nodes.iter().map(|n| node_no(sheet, ranks, n) as usize),
                wide,
            );
        }
    }
    let sides = [
        triples_no(sheet, ranks, &info.before),
        triples_no(sheet, ranks, &info.after),
    ];
    for s in &sides {
        p32(out, s.len() as u32);
    }
    for s in &sides {
        for x in s.iter().flatten() {
            p32(out, *x);
        }
    }
}

pub fn borrow_at(sheet: &Sheet, at: u32, wide: bool, united: bool) -> Answer {
    let b = borrows(sheet, united)?;
    if at as usize >= sheet.n {
        return no(14, 0);
    }
    let mut out = borrow_head(&b);
    borrow_row(&mut out, sheet, &ranks(sheet), &b, at, wide);
    Ok(out)
}

pub fn borrow_all(sheet: &Sheet, wide: bool, united: bool) -> Answer {
    let b = borrows(sheet, united)?;
    let ranks = ranks(sheet);
    let mut out = borrow_head(&b);
    for at in 0..sheet.n as u32 {
        borrow_row(&mut out, sheet, &ranks, &b, at, wide);
    }
    Ok(out)
}
