//! What is written, and how the command ends.
use sorzibelu::Refusal;
use std::{
    ffi::OsStr,
    fs,
    io::{self, ErrorKind, Write},
    path::{Path, PathBuf},
    process,
};

/// How a command ends that could do its work.
pub enum Status {
    Answered,
    Refused,
}

/// Why a command could not.
pub enum End {
    /// The words are wrong.
    Usage(String),
    /// A file cannot be read or written, or is no text of the form.
    Trouble(String),
    /// As trouble, and all was said.
    Told,
    /// Nobody reads the output any more.
    Closed,
}

/// One or more lines on standard error; that it is closed or full changes nothing.
pub fn complain(why: &str) {
    let _ = writeln!(io::stderr(), "{why}");
}

/// What an error of standard output means.
pub fn ended(e: io::Error) -> End {
    match e.kind() {
        ErrorKind::BrokenPipe => End::Closed,
        _ => End::Trouble(format!("standard output: {e}")),
    }
}

/// Bytes on standard output.
pub fn put(bytes: &[u8]) -> Result<(), End> {
    if crate::closed::output() {
        return Err(End::Trouble("standard output is closed".into()));
    }
    let mut out = io::stdout().lock();
    out.write_all(bytes).and_then(|()| out.flush()).map_err(ended)
}

/// A text on standard output: answered.
pub fn print(text: &str) -> Result<Status, End> {
    put(text.as_bytes()).map(|()| Status::Answered)
}

/// What is printed for a refusal: the paper's line, and what it means.
pub fn refused(refusal: Refusal, why: &str) -> String {
    format!("refused {} {}\n{why}\n", refusal.number(), refusal.place())
}

/// Prints it.
pub fn refuse(refusal: Refusal, why: &str) -> Result<Status, End> {
    put(refused(refusal, why).as_bytes()).map(|()| Status::Refused)
}

/// A sheet's bytes to where `-o` says: a file, or standard output for `-`.
pub fn put_sheet(to: &OsStr, bytes: &[u8]) -> Result<Status, End> {
    if to == "-" { put(bytes)? } else { write_file(Path::new(to), bytes)? }
    Ok(Status::Answered)
}

/// Takes a file away again unless it was kept.
struct Unfinished(Option<PathBuf>);

impl Drop for Unfinished {
    fn drop(&mut self) {
        if let Some(path) = &self.0 {
            let _ = fs::remove_file(path);
        }
    }
}

/// A new file in the folder of another.
fn new_beside(file: &Path) -> io::Result<(fs::File, PathBuf)> {
    let mut turn = 0;
    loop {
        let beside = file.with_file_name(format!(".sorzibelu-{}-{turn}", process::id()));
        match fs::File::options().write(true).create_new(true).open(&beside) {
            Err(e) if e.kind() == ErrorKind::AlreadyExists && turn < 100 => turn += 1,
            opened => return opened.map(|f| (f, beside)),
        }
    }
}

/// Writes a file whole or not at all: a new one beside it takes its name at the end. What is no plain file, such as a pipe, is written as it is.
pub fn write_file(to: &Path, bytes: &[u8]) -> Result<(), End> {
    let trouble = |e: io::Error| End::Trouble(format!("{}: {e}", to.display()));
    // through a link to what it names
    let real = fs::canonicalize(to).unwrap_or_else(|_| to.to_path_buf());
    let old = fs::metadata(&real).ok();
    if old.as_ref().is_some_and(|m| m.is_dir()) {
        return Err(trouble(ErrorKind::IsADirectory.into()));
    }
    if old.as_ref().is_some_and(|m| !m.is_file()) {
        let mut file = fs::File::options().write(true).open(&real).map_err(trouble)?;
        return file.write_all(bytes).and_then(|()| file.flush()).map_err(trouble);
    }
    if real.file_name().is_none() {
        return Err(trouble(ErrorKind::InvalidFilename.into()));
    }
    let (mut file, beside) = new_beside(&real).map_err(trouble)?;
    let mut unfinished = Unfinished(Some(beside.clone()));
    file.write_all(bytes).and_then(|()| file.sync_all()).map_err(trouble)?;
    if let Some(old) = old {
        fs::set_permissions(&beside, old.permissions()).map_err(trouble)?;
    }
    fs::rename(&beside, &real).map_err(trouble)?;
    unfinished.0 = None;
    Ok(())
}
