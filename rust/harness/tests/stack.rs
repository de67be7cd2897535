//! Every call runs in a thread of the stack that is promised, and needs no more than it.
use harness::{heavy, stack::depth};
use sorzibelu::{PAGE_STACK_BYTES, STACK_BYTES};
use std::thread;

fn promised(name: &str) -> usize {
    if name == "page" { PAGE_STACK_BYTES } else { STACK_BYTES }
}

#[test]
fn every_call_in_a_thread_of_the_promised_stack() {
    let inputs = heavy::inputs();
    let inputs = &inputs;
    thread::scope(|scope| {
        for (name, call) in heavy::calls() {
            let run = move || inputs.iter().for_each(call);
            thread::Builder::new().stack_size(promised(name)).spawn_scoped(scope, run).unwrap().join().unwrap_or_else(|_| panic!("{name}"));
        }
    });
}

#[test]
fn what_each_call_needs() {
    let inputs = heavy::inputs();
    for (name, call) in heavy::calls() {
        let most = inputs.iter().map(|input| depth(|| call(input))).max().unwrap_or(0);
        println!("{name}: {most}");
        assert!(most <= promised(name), "{name}: {most}");
    }
}
