//! Marks for candidates' answers: live sets, flow tables, rewritten code and dying lists. What is right comes from the proved calls alone.
//!
//! An answer is a text. Its first word may name its kind (`live`, `flow`, `rewritten`, `dying`); without it, it is `live` where a sheet is asked and
//! `dying` where a pair of graphs is. One text may have several parts, each under a line with its kind's name, as a page has them. `#` and `//` start a comment (in code `#5` is a payload). Lines stand in any
//! order, a line that cannot be read costs that line only, and of two lines for the same thing the first counts.
//!
//! ```text
//! live
//! 0 0000000000000003 0000000000000002   # offset, before, after: livelist's line
//! 1 0x3 2                               # hex of any case and length
//! 2 t0,t1 -                             # names, - for none
//! 3 t0 t1 | t1                          # with a bar between the sets
//! 4: before t0 t1, after t1             # in words, as a page has them; one side may stand alone
//! taken 7
//!
//! flow
//! 0 to 3: key 2, leads to 2 3           # a page's line
//! 4 5 3 1                               # the numbers alone: lower, upper, key, successors
//! blocks 2
//!
//! rewritten
//! locals 3 user 3 parameters 0 references t1    // the heading may stand, or be left out
//! 0: branch L1 L3 on t0                         // with offsets or without; with them in any order
//! label L1 @1
//!
//! dying
//! 2 1 0                                 # in order, in one line or several; - for none
//! ```
//!
//! Where the sheet or the pair is refused, or its rewriting is, one line is asked: `refused 7 1`. Rewritten code may be a sheet's bytes too.
mod align;
mod answer;
mod dying;
mod fates;
mod files;
mod flow;
mod live;
mod question;
mod report;
mod rewritten;
pub mod rules;
mod starts;

pub use files::{run, Options, Status};
pub use question::Question;
pub use report::{Finding, Report, Verdict};

use std::fmt;

/// What is answered.
#[derive(Clone, Copy, Debug, PartialEq, Eq, Hash)]
pub enum Kind {
    /// Live sets and the count of blocks taken.
    Live,
    /// The flow table and the number of blocks.
    Flow,
    /// The rewritten code.
    Rewritten,
    /// The dying nodes of a pair of graphs.
    Dying,
}

impl Kind {
    /// All of them.
    pub const ALL: [Kind; 4] = [Kind::Live, Kind::Flow, Kind::Rewritten, Kind::Dying];

    /// The kind that a word names, in any case.
    ///
    /// ```
    /// use sorzibelu::mark::Kind;
    /// assert_eq!(Kind::named("Flow"), Some(Kind::Flow));
    /// assert_eq!(Kind::named("flew"), None);
    /// ```
    pub fn named(word: &str) -> Option<Kind> {
        Kind::ALL.into_iter().find(|k| k.name().eq_ignore_ascii_case(word))
    }

    fn name(self) -> &'static str {
        match self {
            Kind::Live => "live",
            Kind::Flow => "flow",
            Kind::Rewritten => "rewritten",
            Kind::Dying => "dying",
        }
    }
}

impl fmt::Display for Kind {
    fn fmt(&self, f: &mut fmt::Formatter<'_>) -> fmt::Result {
        f.write_str(self.name())
    }
}

/// `t0 t1`, `-` for none.
fn names(m: u64) -> String {
    if m == 0 {
        return "-".into();
    }
    (0..64).filter(|i| m >> i & 1 == 1).map(|i| format!("t{i}")).collect::<Vec<_>>().join(" ")
}
