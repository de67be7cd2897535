//! Answers as text.
use crate::{
    answer::{ENDLESS, PANIC, TOO_LONG},
    bytes::{g32, u16_at, width},
    sheet::Sheet,
};

const KINDS: [&str; 12] = [
    "Assign",
    "Call",
    "Ret",
    "Load",
    "Branch",
    "Jump",
    "Label",
    "Abort",
    "Nop",
    "SaveMem",
    "SaveSpecVar",
    "Prop",
];

pub fn list_sheet(b: &[u8]) {
    let s = Sheet::decode(b);
    let refs: Vec<usize> = (0..s.locals).filter(|i| s.is_ref(*i)).collect();
    let muts: Vec<usize> = (0..s.locals).filter(|i| s.is_mut(*i)).collect();
    println!(
        "n {} locals {} user {} parameters {} references {:?} mutable {:?}",
        s.n, s.locals, s.user_locals, s.parameters, refs, muts
    );
    for (i, r) in s.records.iter().enumerate() {
        let payload = u32::from_le_bytes(s.payload(i));
        print!(
            "{} {} sub {} attr {}",
            i,
            KINDS[r[0] as usize],
            r[1],
            s.attr(i)
        );
        match r[0] {
            4 => print!(" labels {} {}", u16_at(r, 4), u16_at(r, 6)),
            5 | 6 => print!(" label {}", u16_at(r, 4)),
            _ => {}
        }
        print!(
            " to {:?} from {:?}",
            &r[12..12 + r[8] as usize],
            &r[20..20 + r[9] as usize]
        );
        if r[10] == 1 {
            print!(" abort label {} into {}", u16_at(r, 4), r[11]);
        }
        println!(" payload {}", payload);
    }
}

fn hex(b: &[u8]) -> String {
    b.iter().rev().map(|x| format!("{:02x}", x)).collect()
}

fn borrow_numbers(d: &[u8]) -> String {
    format!(
        "flags {} blocks {} most triples {}",
        d[0],
        g32(d, 1),
        g32(d, 5)
    )
}

/// Borrow rows from an offset on, with masks of w bytes.
fn print_rows(mut row: u32, d: &[u8], w: usize) {
    let mut at = 0;
    while at < d.len() {
        let reached = d[at] == 1;
        at += 1;
        if !reached {
            println!("{} unreached", row);
        } else {
            let m: Vec<String> = (0..4).map(|i| hex(&d[at + i * w..][..w])).collect();
            at += 4 * w;
            let counts = [g32(d, at), g32(d, at + 4)];
            at += 8;
            for side in 0..2 {
                let mut t = vec![];
                for _ in 0..counts[side] {
                    t.push((g32(d, at), g32(d, at + 4), g32(d, at + 8)));
                    at += 12;
                }
                println!(
                    "{} {} live {} moved {} triples {:?}",
                    row,
                    ["before", "after"][side],
                    m[2 * side],
                    m[2 * side + 1],
                    t
                );
            }
        }
        row += 1;
    }
}

/// Prints the data of an answer as text.
pub fn print_answer(op: u8, b: &[u8], out: &[u8]) {
    let wide = op & 0x80 != 0;
    let w = width(wide);
    if out[0] != 0 {
        match out[0] {
            PANIC => println!("panic {}", String::from_utf8_lossy(&out[5..])),
            ENDLESS => println!("endless, node {}", g32(out, 1)),
            TOO_LONG => println!("too long, place {}", g32(out, 1)),
            k => println!("refused {} {}", k, g32(out, 1)),
        }
        return;
    }
    let d = &out[1..];
    match op & 0x7f {
        1 => {
            for row in d.chunks(12) {
                let v: Vec<String> = (0..6).map(|i| u16_at(row, 2 * i).to_string()).collect();
                println!("{}", v.join(" "));
            }
        }
        2 => {
            for (i, row) in d[..d.len() - 4].chunks(2 * w).enumerate() {
                println!("{} {} {}", i, hex(&row[..w]), hex(&row[w..]));
            }
            println!("taken {}", g32(d, d.len() - 4));
        }
        3 | 7 => list_sheet(d),
        4 | 5 => println!("{}", d[0]),
        6 => println!("{} {:?}", g32(d, 0), &d[4..]),
        8 | 10 | 18 | 20 => {
            println!("{}", borrow_numbers(d));
            let first = if op & 0x7f == 8 || op & 0x7f == 18 {
                g32(b, 0)
            } else {
                0
            };
            print_rows(first, &d[9..], w);
        }
        11 => {
            for row in d.chunks(5) {
                let named = if row[4] == 1 { "named" } else { "never named" };
                println!("{} {} {}", u16_at(row, 0), u16_at(row, 2), named);
            }
        }
        9 | 19 => {
            println!("{} entries {}", borrow_numbers(d), g32(d, 9));
            for row in d[13..].chunks(76) {
                let v: Vec<u32> = (0..19).map(|i| g32(row, 4 * i)).collect();
                println!(
                    "root {} place {} path {:?}",
                    v[0],
                    v[1],
                    &v[3..3 + v[2] as usize]
                );
            }
        }
        _ => {}
    }
}
