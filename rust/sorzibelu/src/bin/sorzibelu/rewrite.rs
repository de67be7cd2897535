//! `rewrite [-o SHEET] FILE`.
use crate::{
    input,
    output::{print, put_sheet, End, Status},
    words::Words,
    Command,
};
use sorzibelu::{rewritten, sheet::Sheet, text, Refusal};

pub const COMMAND: Command = Command {
    name: "rewrite",
    takes: "[-o SHEET] FILE",
    about: "the rewritten code of a sheet as text, or with -o its bytes in a file",
    help: "$ sorzibelu rewrite sheets/m5.txt\nlocals 3 user 3 parameters 0 references\n0: t0 <- load Bool\n1: t2 <- call Not t0\n2: ret t2\n\
           $ sorzibelu rewrite -o new.sheet sheets/m5.txt\n\n\
           -o writes the whole file or leaves it as it was; -o - writes the bytes to standard output.\n",
    run,
};

/// The text of a sheet, with the offset before each instruction, as on a page.
pub fn listing(bytes: &[u8]) -> Result<String, Refusal> {
    let all = text::list(&Sheet::try_from(bytes)?);
    let (head, code) = all.split_once('\n').unwrap_or((&all, ""));
    Ok(code.lines().enumerate().fold(format!("{head}\n"), |s, (k, line)| s + &format!("{k}: {line}\n")))
}

fn run(mut words: Words) -> Result<Status, End> {
    let to = words.value("-o")?;
    let given = input::sheet(&words.file()?)?;
    let new = match rewritten(&given.bytes) {
        Ok(new) => new,
        Err(r) => return given.refuse(r),
    };
    match (to, listing(&new)) {
        (Some(to), _) => put_sheet(&to, &new),
        (None, Ok(text)) => print(&text),
        (None, Err(r)) => given.refuse(r),
    }
}
