//! include/sorzibelu.h: a C program that calls every entry point links and runs, and the header's sizes are the crate's. Left out where there is no C compiler.
mod common;
use common::{folder, root};
use std::{
    collections::HashMap,
    fs,
    path::Path,
    process::{Command, Output},
};

fn compile(compiler: &str, words: &[&str]) -> Option<Output> {
    let include = root().join("include");
    let done = Command::new(compiler).args(["-Wall", "-Wextra", "-Werror", "-pedantic"]).arg("-I").arg(include).args(words).output();
    done.map_err(|e| eprintln!("{compiler}: {e}; the test is left out")).ok()
}

#[test]
fn a_c_program_links() {
    let dir = folder("header");
    let program = dir.join("header");
    let source = Path::new(env!("CARGO_MANIFEST_DIR")).join("tests/header.c");
    let archive = Path::new(env!("OUT_DIR")).join("libc_api.a");
    let words = ["-std=c99", source.to_str().unwrap(), archive.to_str().unwrap(), "-o", program.to_str().unwrap()];
    let Some(done) = compile("cc", &words) else { return };
    assert!(done.status.success(), "{}", String::from_utf8_lossy(&done.stderr));
    let ran = Command::new(&program).output().unwrap();
    assert_eq!(String::from_utf8_lossy(&ran.stdout), "all right\n");
    assert!(ran.status.success());
}

#[test]
fn the_header_is_c_plus_plus_too() {
    let dir = folder("plus");
    let source = dir.join("plus.cc");
    fs::write(&source, "#include \"sorzibelu.h\"\nint main() { return SORZIBELU_NUMBER(sorzibelu_check(nullptr, 0)) != SORZIBELU_LENGTH; }\n").unwrap();
    let Some(done) = compile("c++", &["-std=c++11", "-fsyntax-only", source.to_str().unwrap()]) else { return };
    assert!(done.status.success(), "{}", String::from_utf8_lossy(&done.stderr));
}

#[test]
fn the_sizes_are_the_crates() {
    let header = fs::read_to_string(root().join("include/sorzibelu.h")).unwrap();
    let sizes: HashMap<&str, &str> = header.lines().filter_map(|l| l.strip_prefix("#define SORZIBELU_")?.split_once(' ')).collect();
    let size = |name: &str| match sizes[name] {
        "(6 * SORZIBELU_MAX_INSTRUCTIONS)" => 6 * 1024,
        "(16 * SORZIBELU_MAX_INSTRUCTIONS)" => 16 * 1024,
        number => number.parse::<usize>().unwrap(),
    };
    for (name, wanted) in [
        ("MAX_INSTRUCTIONS", sorzibelu::MAX_INSTRUCTIONS),
        ("MAX_LOCALS", sorzibelu::MAX_LOCALS),
        ("MAX_SHEET_BYTES", sorzibelu::MAX_SHEET_BYTES),
        ("FLOW_NUMBERS", sorzibelu::FLOW_NUMBERS),
        ("LIVE_BYTES", sorzibelu::LIVE_BYTES),
        ("MAX_CLASS_SHEETS", sorzibelu::MAX_CLASS_SHEETS),
        ("NUMBERS_PER_SHEET", sorzibelu::NUMBERS_PER_SHEET),
        ("MAX_NODES", sorzibelu::MAX_NODES),
        ("MAX_TRIPLES", sorzibelu::MAX_TRIPLES),
        ("PAGE_BYTES", sorzibelu::PAGE_BYTES),
        ("LIVELIST_BYTES", sorzibelu::LIVELIST_BYTES),
        ("STACK_BYTES", sorzibelu::STACK_BYTES),
        ("PAGE_STACK_BYTES", sorzibelu::PAGE_STACK_BYTES),
    ] {
        assert_eq!(size(name), wanted, "{name}");
    }
    // every refusal with its number
    for number in 1..=18 {
        assert!(header.contains(&format!(" = {number},")) || header.contains(&format!(" = {number} ")), "{number}");
    }
}
