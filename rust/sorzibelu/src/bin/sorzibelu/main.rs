//! The command `sorzibelu`: the proved calls over files. Each sub-command is one small file and one line of the table below.
mod assemble;
mod check;
mod closed;
mod flow;
mod graphs;
mod help;
mod input;
mod label;
mod list;
mod live_class;
mod mark;
mod output;
mod renumber;
mod rewrite;
mod texts;
mod words;

use output::{complain, End, Status};
use std::{env, ffi::OsString, process::ExitCode, thread};
use words::Words;

/// A sub-command.
pub struct Command {
    pub name: &'static str,
    /// What stands behind its name.
    pub takes: &'static str,
    /// One line for the list of commands.
    pub about: &'static str,
    /// What `--help` says below that, an example among it.
    pub help: &'static str,
    pub run: fn(Words) -> Result<Status, End>,
}

const COMMANDS: &[&Command] = &[
    &texts::PAGE,
    &texts::LIVE,
    &live_class::COMMAND,
    &flow::COMMAND,
    &rewrite::COMMAND,
    &renumber::COMMAND,
    &label::COMMAND,
    &check::COMMAND,
    &assemble::COMMAND,
    &list::COMMAND,
    &mark::COMMAND,
    &graphs::IN_USE,
    &graphs::CONDITIONAL,
    &graphs::DYING,
];

/// Enough for every call, a page among them, and for what stands around it.
const STACK: usize = sorzibelu::PAGE_STACK_BYTES + (4 << 20);

fn run(mut words: Vec<OsString>) -> Result<Status, End> {
    let known = |word: &OsString| COMMANDS.iter().find(|c| word == c.name).copied();
    let asks = |word: &OsString| word == "--help" || word == "-h";
    if words.is_empty() {
        return Err(End::Usage(format!("a command should stand here: {}", help::names())));
    }
    let first = words.remove(0);
    match (known(&first), first.to_str()) {
        (Some(command), _) if words.iter().take_while(|w| *w != "--").any(asks) => output::print(&help::of(command)),
        (Some(command), _) => (command.run)(Words::new(command, words)),
        (None, Some("--help" | "-h" | "help")) => match words.first().map(known) {
            Some(Some(command)) => output::print(&help::of(command)),
            Some(None) => Err(End::Usage(format!("'{}' is no command: they are {}", words[0].display(), help::names()))),
            None => output::print(&help::all()),
        },
        (None, Some("--version" | "-V")) => output::print(concat!("sorzibelu ", env!("CARGO_PKG_VERSION"), "\n")),
        (None, _) => Err(End::Usage(format!("'{}' is no command: they are {}", first.display(), help::names()))),
    }
}

fn main() -> ExitCode {
    let words = env::args_os().skip(1).collect();
    let done = thread::Builder::new().stack_size(STACK).spawn(|| run(words)).map(|t| t.join());
    match done {
        Ok(Ok(Ok(Status::Answered) | Err(End::Closed))) => ExitCode::SUCCESS,
        Ok(Ok(Ok(Status::Refused))) => ExitCode::from(1),
        Ok(Ok(Err(End::Usage(why) | End::Trouble(why)))) => {
            complain(&why);
            ExitCode::from(2)
        }
        Ok(Ok(Err(End::Told)) | Err(_)) => ExitCode::from(2),
        Err(e) => {
            complain(&format!("no thread can be started: {e}"));
            ExitCode::from(2)
        }
    }
}
