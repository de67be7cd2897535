//! `label FILE [LABEL]`.
use crate::{
    Command, input,
    output::{End, Status, print},
    words::Words,
};
use sorzibelu::{
    Lookup, Refusal, label,
    sheet::{LABEL, Sheet},
};
use std::path::Path;

pub const COMMAND: Command = Command {
    name: "label",
    takes: "FILE [LABEL]",
    about: "whether each label of a sheet, or one label, is named, never named or undefined, and where its Label stands",
    help: "$ sorzibelu label sheets/unnamed.txt\nL1: at offset 0, named by offset 2\nL5: at offset 1, never named\nL2: at offset 3, named by offset 2\n\
           $ sorzibelu label sheets/unnamed.txt L7\nL7: undefined\n\n\
           LABEL is a number, with an L before it or not. A Branch, a Jump or a Call with an abort action names a label, whether a path reaches it or not. A Label that\n\
           nothing names starts no block by itself.\n",
    run,
};

/// One line: the proved answer, and the offsets that name the label.
fn line(bytes: &[u8], sheet: &Sheet, number: u32) -> Result<String, Refusal> {
    let names = |k: &usize| sheet.code[*k].names().any(|l| u32::from(l) == number);
    let by: Vec<String> = (0..sheet.code.len()).filter(names).map(|k| k.to_string()).collect();
    Ok(match label(bytes, number)? {
        Lookup::Named(at) => format!("L{number}: at offset {at}, named by offset{} {}\n", if by.len() == 1 { "" } else { "s" }, by.join(" ")),
        Lookup::Unnamed(at) => format!("L{number}: at offset {at}, never named\n"),
        Lookup::Undefined => format!("L{number}: undefined\n"),
    })
}

/// The lines of one label, or of every Label by its offset.
fn lines(bytes: &[u8], asked: Option<u32>) -> Result<String, Refusal> {
    let sheet = Sheet::try_from(bytes)?;
    let labels: Vec<u32> = match asked {
        Some(number) => vec![number],
        None => sheet.code.iter().filter(|r| r.kind == LABEL).map(|r| r.one.into()).collect(),
    };
    if labels.is_empty() {
        return Ok("there are no labels\n".into());
    }
    labels.into_iter().map(|number| line(bytes, &sheet, number)).collect()
}

/// `L7` or `7`.
fn number(word: &Path) -> Result<u32, End> {
    let digits = word.to_str().map(|w| w.strip_prefix('L').unwrap_or(w)).filter(|d| d.bytes().all(|c| c.is_ascii_digit()));
    let number = digits.and_then(|d| d.parse().ok());
    number.ok_or_else(|| End::Usage(format!("'{}' is no label: L0 to L{}, such as L1", word.display(), u32::MAX)))
}

fn run(words: Words) -> Result<Status, End> {
    let words = words.files(1, 2)?;
    let asked = words.get(1).map(|w| number(w)).transpose()?;
    let given = input::sheet(&words[0])?;
    match lines(&given.bytes, asked) {
        Ok(text) => print(&text),
        Err(r) => given.refuse(r),
    }
}
