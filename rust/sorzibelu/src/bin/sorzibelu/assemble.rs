//! `assemble [--unchecked] [-o SHEET] FILE`.
use crate::{
    input,
    output::{complain, put, refused, write_file, End, Status},
    words::Words,
    Command,
};
use std::{
    io::{stdout, IsTerminal},
    path::Path,
};

pub const COMMAND: Command = Command {
    name: "assemble",
    takes: "[--unchecked] [-o SHEET] FILE",
    about: "the bytes of a sheet that is written as text",
    help: "$ sorzibelu assemble -o m2.sheet sheets/m2.txt\n$ sorzibelu assemble --unchecked -o wrong.sheet sheets/kind12.txt\n\n\
           --unchecked writes a sheet that the checks refuse too, as a refusal exercise needs. -o writes the whole file or leaves it as it was;\n\
           without it the bytes go to standard output, and a refusal to standard error. Every line that is wrong is told with its number.\n\
           docs/TEXT.md has the form.\n",
    run,
};

fn run(mut words: Words) -> Result<Status, End> {
    let unchecked = words.flag("--unchecked");
    let to = words.value("-o")?.filter(|to| to != "-");
    if to.is_none() && stdout().is_terminal() {
        return Err(words.usage("a sheet's bytes are nothing for a terminal: -o names a file for them"));
    }
    let file = words.file()?;
    let given = input::of_text(&file, &input::text_of(&file, input::read(&file)?)?)?;
    match (sorzibelu::check(&given.bytes), to) {
        (Err(r), Some(_)) if !unchecked => given.refuse(r),
        (Err(r), None) if !unchecked => {
            complain(refused(r, &given.why(r)).trim_end());
            Ok(Status::Refused)
        }
        (_, Some(to)) => write_file(Path::new(&to), &given.bytes).map(|()| Status::Answered),
        (_, None) => put(&given.bytes).map(|()| Status::Answered),
    }
}
