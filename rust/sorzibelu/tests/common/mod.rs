//! The command as a house runs it.
#![allow(dead_code)]
mod folder;

#[allow(unused_imports)] // some tests name the type
pub use folder::{Folder, folder};
use std::{
    fs,
    io::Write,
    path::{Path, PathBuf},
    process::{Command, Stdio},
    thread,
};

pub fn root() -> PathBuf {
    Path::new(env!("CARGO_MANIFEST_DIR")).join("../..")
}

/// A file of sheets/.
pub fn stored(name: &str) -> String {
    root().join("sheets").join(name).display().to_string()
}

/// A file in a folder.
pub fn file(dir: &Path, name: &str, content: impl AsRef<[u8]>) -> String {
    let path = dir.join(name);
    fs::write(&path, content).unwrap();
    path.display().to_string()
}

/// Status, standard output, standard error.
pub type Ran = (i32, String, String);

pub fn command(args: &[&str]) -> Command {
    let mut c = Command::new(env!("CARGO_BIN_EXE_sorzibelu"));
    c.args(args);
    c
}

/// Runs the command on words, with bytes on its standard input.
pub fn fed(args: &[&str], input: &[u8]) -> Ran {
    let mut child = command(args).stdin(Stdio::piped()).stdout(Stdio::piped()).stderr(Stdio::piped()).spawn().unwrap();
    let mut stdin = child.stdin.take().unwrap();
    let input = input.to_vec();
    let writer = thread::spawn(move || {
        let _ = stdin.write_all(&input);
    });
    let out = child.wait_with_output().unwrap();
    writer.join().unwrap();
    (out.status.code().unwrap(), String::from_utf8_lossy(&out.stdout).into(), String::from_utf8_lossy(&out.stderr).into())
}

/// Runs the command on words.
pub fn run(args: &[&str]) -> Ran {
    fed(args, &[])
}

/// Answered, with this text.
pub fn answered(args: &[&str], text: &str) {
    assert_eq!(run(args), (0, text.to_string(), String::new()), "{args:?}");
}

/// Refused, with these two lines.
pub fn refused(args: &[&str], lines: &str) {
    assert_eq!(run(args), (1, lines.to_string(), String::new()), "{args:?}");
}

/// Status 2, nothing answered, one line of complaint with this in it.
pub fn trouble(args: &[&str], part: &str) {
    let (status, out, err) = run(args);
    assert!(status == 2 && out.is_empty() && err.lines().count() == 1 && err.contains(part), "{args:?}: {status} {out:?} {err:?}");
}
