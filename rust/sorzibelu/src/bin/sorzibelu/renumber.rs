//! `renumber [-o SHEET] FILE`.
use crate::{
    Command, input,
    output::{End, Status, print, put_sheet},
    rewrite::listing,
    words::Words,
};
use sorzibelu::{
    Refusal, renumbered,
    sheet::{Instruction, Sheet},
};

pub const COMMAND: Command = Command {
    name: "renumber",
    takes: "[-o SHEET] FILE",
    about: "a sheet without the locals that nothing mentions: which local is now which, and the code; or with -o its bytes in a file",
    help: "$ sorzibelu renumber sheets/spare.txt\nt0 and t1 are user locals and keep their numbers\nt2 is gone\nt3 is still t3\nt4 is gone\nt5 is now t2\nt6 is now t4\n\n\
           locals 5 user 2 parameters 1 references t2\n0: t2 <- call BorrowLoc t0\n1: t3 <- call ReadRef t2 abort L1 into t4\n2: ret t3\n3: label L1\n4: abort t4\n\
           $ sorzibelu renumber -o new.sheet sheets/spare.txt\n\n\
           User locals keep their numbers, the others are numbered on as they are first mentioned, and those that nothing mentions are gone. A TraceLocal's payload stays.\n\
           -o writes the whole file or leaves it as it was; -o - writes the bytes to standard output.\n",
    run,
};

/// The locals that an instruction mentions.
fn mentions(r: &Instruction) -> impl Iterator<Item = u8> + '_ {
    r.dsts.iter().chain(&r.srcs).copied().chain(r.abort)
}

/// What became of each local: both sheets mention the same ones at the same places, and a local that neither mentions is gone.
fn became(old: &Sheet, new: &Sheet) -> Vec<Option<u8>> {
    let mut now = vec![None; old.locals as usize];
    let both = old.code.iter().flat_map(mentions).zip(new.code.iter().flat_map(mentions));
    both.for_each(|(was, is)| now[was as usize] = Some(is));
    now
}

/// The line of the user locals.
fn users(count: u16) -> String {
    match count {
        0 => "there are no user locals\n".into(),
        1 => "t0 is a user local and keeps its number\n".into(),
        2 => "t0 and t1 are user locals and keep their numbers\n".into(),
        _ => format!("t0 to t{} are user locals and keep their numbers\n", count - 1),
    }
}

/// The line of a local that is no user local.
fn line(was: usize, is: Option<u8>) -> String {
    match is {
        None => format!("t{was} is gone\n"),
        Some(is) if is as usize == was => format!("t{was} is still t{is}\n"),
        Some(is) => format!("t{was} is now t{is}\n"),
    }
}

/// Which local is now which.
fn told(old: &Sheet, new: &Sheet) -> String {
    if old == new {
        let why = if old.locals == 0 { "there are no locals" } else { "every local keeps its number" };
        return format!("nothing changes: {why}\n");
    }
    let others = became(old, new).into_iter().enumerate().skip(old.user_locals as usize);
    others.fold(users(old.user_locals), |s, (was, is)| s + &line(was, is))
}

/// What is printed of a sheet and the new one.
fn both(old: &[u8], new: &[u8]) -> Result<String, Refusal> {
    Ok(told(&Sheet::try_from(old)?, &Sheet::try_from(new)?) + "\n" + &listing(new)?)
}

fn run(mut words: Words) -> Result<Status, End> {
    let to = words.value("-o")?;
    let given = input::sheet(&words.file()?)?;
    let new = match renumbered(&given.bytes) {
        Ok(new) => new,
        Err(r) => return given.refuse(r),
    };
    match (to, both(&given.bytes, &new)) {
        (Some(to), _) => put_sheet(&to, &new),
        (None, Ok(text)) => print(&text),
        (None, Err(r)) => given.refuse(r),
    }
}
