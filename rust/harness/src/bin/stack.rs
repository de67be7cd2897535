//! `stack`: how much stack each call needs, over the sheets and graphs of `harness::heavy`.
use harness::{heavy, stack::depth};

fn main() {
    let inputs = heavy::inputs();
    for (name, call) in heavy::calls() {
        let most = inputs.iter().map(|input| depth(|| call(input))).max().unwrap_or(0);
        match most {
            0 => println!("{name:12} below 1 KiB"),
            _ => println!("{name:12} {:.1} KiB", most as f64 / 1024.0),
        }
    }
}
