//! `live-class FILE ..`.
use crate::{
    Command,
    input::{self, Given, called},
    output::{End, Status, print, refuse},
    words::Words,
};
use sorzibelu::{
    LiveSets, Refusal, class_live_sets, class_sheets,
    sheet::{BLOCK, class_why, why},
};
use std::{ops::Range, path::PathBuf};

pub const COMMAND: Command = Command {
    name: "live-class",
    takes: "FILE ..",
    about: "the sheets of a class set in one call: which blocks each has, whether it is accepted, and how many blocks were taken",
    help: "$ sorzibelu live-class sheets/class.sheets\n\
           sheet 0: blocks 0 to 1, accepted, 1 instruction, taken 3\n\
           sheet 1: blocks 2 to 3, accepted, 4 instructions, taken 7\n\
           sheet 2: blocks 4 to 5, refused 4 0, taken 0; offset 0: its kind is 12, and the last kind is 11, Prop\n\
           sheet 3: blocks 6 to 7, accepted, 4 instructions, taken 7\n\
           sheet 4: blocks 8 to 9, accepted, 6 instructions, taken 6\n\
           5 sheets: 4 accepted, 1 refused\n\n\
           Each FILE is a sheet, or sheets laid end to end as bytes; all of them are laid end to end in this order. A sheet starts at each block numbered 0, and\n\
           there are 16 at most. Each is answered as it would be alone; a block or an offset that its refusal names is counted within it.\n\
           Status 0: the class set is answered, even where sheets of it are refused. 1: the whole is refused, with 'refused NUMBER PLACE' and what it means.\n",
    run,
};

/// A file, and which bytes of the class set it gave.
struct Part {
    file: PathBuf,
    given: Given,
    at: Range<usize>,
}

/// One or many.
fn count(n: usize, what: &str) -> String {
    format!("{n} {what}{}", if n == 1 { "" } else { "s" })
}

/// The files that a sheet comes from, where there are several.
fn from(parts: &[Part], at: &Range<usize>) -> String {
    let has = |p: &&Part| p.at.start.max(at.start) < p.at.end.min(at.end);
    let names: Vec<String> = parts.iter().filter(has).map(|p| called(&p.file)).collect();
    if parts.len() == 1 { String::new() } else { format!(" from {}", names.join(" and ")) }
}

/// Why a sheet is refused, with the line of the text that it was written down in.
fn reason(parts: &[Part], at: &Range<usize>, sheet: &[u8], refusal: Refusal) -> String {
    parts.iter().find(|p| p.at == *at).map_or_else(|| why(sheet, refusal), |p| p.given.why(refusal))
}

/// The line of sheet k, which has these bytes of the class set.
fn line(parts: &[Part], k: usize, at: Range<usize>, sheet: &[u8], answer: &Result<LiveSets, Refusal>) -> String {
    let (first, last) = (at.start / BLOCK, at.end / BLOCK - 1);
    let blocks = if first == last { format!("block {first}") } else { format!("blocks {first} to {last}") };
    let answer = match answer {
        Ok(live) => format!("accepted, {}, taken {}", count(live.sets.len(), "instruction"), live.taken),
        Err(r) => format!("refused {} {}, taken 0; {}", r.number(), r.place(), reason(parts, &at, sheet, *r)),
    };
    format!("sheet {k}{}: {blocks}, {answer}\n", from(parts, &at))
}

/// A line for each sheet, and how many were accepted.
fn table(parts: &[Part], class: &[u8], answers: &[Result<LiveSets, Refusal>]) -> String {
    let (mut text, mut end) = (String::new(), 0);
    for (k, (sheet, answer)) in class_sheets(class).into_iter().zip(answers).enumerate() {
        let at = end..end + sheet.len();
        end = at.end;
        text += &line(parts, k, at, sheet, answer);
    }
    let refused = answers.iter().filter(|a| a.is_err()).count();
    text + &format!("{}: {} accepted, {refused} refused\n", count(answers.len(), "sheet"), answers.len() - refused)
}

fn run(words: Words) -> Result<Status, End> {
    let (mut parts, mut class) = (vec![], vec![]);
    for file in words.files(1, usize::MAX)? {
        let given = input::sheet(&file)?;
        let start = class.len();
        class.extend(&given.bytes);
        parts.push(Part { file, given, at: start..class.len() });
    }
    match class_live_sets(&class) {
        Ok(answers) => print(&table(&parts, &class, &answers)),
        Err(r) => refuse(r, &class_why(&class, r)),
    }
}
