//! The words behind a sub-command: options anywhere before `--`, then files.
use crate::{output::End, Command};
use std::{ffi::OsString, path::PathBuf};

pub struct Words {
    command: &'static Command,
    left: Vec<OsString>,
    /// What stands behind `--`: files, whatever they look like.
    behind: Vec<OsString>,
}

impl Words {
    pub fn new(command: &'static Command, mut words: Vec<OsString>) -> Words {
        let mut behind = vec![];
        if let Some(at) = words.iter().position(|w| w == "--") {
            behind = words.split_off(at);
            behind.remove(0);
        }
        Words { command, left: words, behind }
    }

    /// Wrong usage, in one line.
    pub fn usage(&self, why: &str) -> End {
        End::Usage(format!("{why}; usage: sorzibelu {} {}", self.command.name, self.command.takes))
    }

    /// Whether an option stands there; it is taken away.
    pub fn flag(&mut self, name: &str) -> bool {
        let before = self.left.len();
        self.left.retain(|w| w != name);
        self.left.len() < before
    }

    /// What stands behind an option; both are taken away.
    pub fn value(&mut self, name: &str) -> Result<Option<OsString>, End> {
        let Some(at) = self.left.iter().position(|w| w == name) else { return Ok(None) };
        if at + 1 >= self.left.len() {
            return Err(self.usage(&format!("nothing stands behind {name}")));
        }
        self.left.remove(at);
        let value = self.left.remove(at);
        if self.left.iter().any(|w| w == name) {
            return Err(self.usage(&format!("{name} stands twice")));
        }
        Ok(Some(value))
    }

    /// The files that are left, so many of them.
    pub fn files(mut self, least: usize, most: usize) -> Result<Vec<PathBuf>, End> {
        if let Some(option) = self.left.iter().find(|w| w.as_encoded_bytes().starts_with(b"-") && *w != "-") {
            return Err(self.usage(&format!("'{}' is no option here", option.display())));
        }
        let behind = std::mem::take(&mut self.behind);
        self.left.extend(behind);
        if self.left.iter().filter(|w| *w == "-").count() > 1 {
            return Err(self.usage("- stands twice, and standard input can be read once"));
        }
        match self.left.len() {
            n if n < least => Err(self.usage(if n == 0 { "no file is named" } else { "too few words" })),
            n if n > most => Err(self.usage(&format!("'{}' is one word too many", self.left[most].display()))),
            _ => Ok(self.left.into_iter().map(PathBuf::from).collect()),
        }
    }

    /// The one file that is left.
    pub fn file(self) -> Result<PathBuf, End> {
        self.files(1, 1).map(|mut files| files.remove(0))
    }
}
