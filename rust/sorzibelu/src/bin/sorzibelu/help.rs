//! What `--help` prints.
use crate::{Command, COMMANDS};

/// The names of all commands.
pub fn names() -> String {
    COMMANDS.iter().map(|c| c.name).collect::<Vec<_>>().join(", ")
}

/// Of the whole.
pub fn all() -> String {
    let width = COMMANDS.iter().map(|c| c.name.len()).max().unwrap_or(0);
    let list: String = COMMANDS.iter().map(|c| format!("  {:width$}  {}\n", c.name, c.about)).collect();
    format!(
        "sorzibelu COMMAND FILE ..: sheets, live sets and dying nodes, answered by proved calls\n\n{list}\n\
         FILE is a sheet's bytes or its text, told apart by the content, or - for standard input. A graph is a text.\n\
         `sorzibelu COMMAND --help` has an example of each.\n\n\
         Status 0: answered. 1: refused, with the line 'refused NUMBER PLACE' and what it means. 2: wrong usage, or a file that cannot be read or written.\n"
    )
}

/// Of one command.
pub fn of(command: &Command) -> String {
    format!("sorzibelu {} {}\n{}\n\n{}", command.name, command.takes, command.about, command.help)
}
