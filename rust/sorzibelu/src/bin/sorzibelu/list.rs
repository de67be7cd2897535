//! `list [--unchecked] FILE`.
use crate::{
    input,
    output::{print, End, Status},
    words::Words,
    Command,
};
use sorzibelu::{sheet::Sheet, text};

pub const COMMAND: Command = Command {
    name: "list",
    takes: "[--unchecked] FILE",
    about: "the text of a sheet, which assembles to its bytes again",
    help: "$ sorzibelu list sheets/m1.sheet\nlocals 1 user 1 parameters 1 references\nret t0\n\
           $ sorzibelu list --unchecked sheets/kind12.sheet\nlocals 1 user 1 parameters 1 references\nraw kind 12 sources 1 t0\n\n\
           --unchecked lists a sheet that the checks refuse too, with raw lines where an instruction has no form.\n",
    run,
};

fn run(mut words: Words) -> Result<Status, End> {
    let unchecked = words.flag("--unchecked");
    let given = input::sheet(&words.file()?)?;
    match Sheet::try_from(&given.bytes[..]) {
        Ok(sheet) => print(&text::list(&sheet)),
        Err(_) if unchecked => print(&text::list_raw(&given.bytes)),
        Err(r) => given.refuse(r),
    }
}
