//! `mark [--csv] [--kind KIND] [--threads N] SHEET ANSWERS ..`.
use crate::{
    input,
    output::{self, End},
    words::Words,
    Command,
};
use sorzibelu::mark::{self, Kind, Options, Question};
use std::io::{self, stderr, stdout, BufWriter, IsTerminal, Write};

pub const COMMAND: Command = Command {
    name: "mark",
    takes: "[--csv] [--kind KIND] [--threads N] SHEET ANSWERS ..",
    about: "marks for answers to a sheet, or to a pair of graphs: files, and folders with all files in them",
    help: "$ sorzibelu mark sheets/m2.txt sheets/answers/second.txt\n\
           wrong      1 before: t1 is missing\n\x20          rule: 'branch L1 L2 on t0': t0 in; from after as answered (t0 t1) it gives t0 t1\n\
           wrong      taken: 6 should be 7\n3 of 5 right, 2 wrong\n\n\
           An answer is a text: live sets as hex or by names, flow tables, rewritten code or dying nodes; its first word may say which, or --kind does.\n\
           A folder is marked on all cores, or on --threads of them; --csv gives a line for each answer. docs/TEXT.md has the form.\n\
           Status 0: all is right. 1: something is wrong or missing. 2: an answer could not be read, and the others were marked.\n",
    run,
};

/// Standard error: that it is closed or full changes nothing.
struct Complaints;

impl Write for Complaints {
    fn write(&mut self, bytes: &[u8]) -> io::Result<usize> {
        let _ = stderr().write_all(bytes);
        Ok(bytes.len())
    }

    fn flush(&mut self) -> io::Result<()> {
        Ok(())
    }
}

fn run(mut words: Words) -> Result<output::Status, End> {
    let csv = words.flag("--csv");
    let kind = match words.value("--kind")? {
        None => None,
        Some(k) => Some(k.to_str().and_then(Kind::named).ok_or_else(|| words.usage(&format!("'{}' is no kind: they are live, flow, rewritten, dying", k.display())))?),
    };
    let threads = match words.value("--threads")? {
        None => 0,
        Some(n) => n.to_str().and_then(|n| n.parse().ok()).ok_or_else(|| words.usage(&format!("'{}' is no number of threads", n.display())))?,
    };
    let mut answers = words.files(2, usize::MAX)?;
    let sheet = answers.remove(0);
    let question = Question::of_file(&input::read(&sheet)?).map_err(|why| input::each_line(&sheet, &why))?;
    // where the marks themselves go to a terminal they show how far it is
    let shown = stderr().is_terminal() && !stdout().is_terminal();
    let mut progress = |done: usize, all: usize| {
        if shown && all > 1 {
            let _ = write!(stderr(), "\r{done} of {all}{}", if done == all { "\n" } else { "" });
        }
    };
    output::put(&[])?;
    let mut out = BufWriter::new(stdout().lock());
    let marked = mark::run(&question, &Options { answers, kind, csv, threads }, &mut out, &mut Complaints, &mut progress);
    match marked.and_then(|status| out.flush().map(|()| status)).map_err(output::ended)? {
        mark::Status::AllRight => Ok(output::Status::Answered),
        mark::Status::NotAllRight => Ok(output::Status::Refused),
        mark::Status::Failed => Err(End::Told),
    }
}
