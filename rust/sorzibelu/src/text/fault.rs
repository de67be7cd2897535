//! What is wrong with a text: every line that is, with its number.
use std::fmt;

/// How many faults are kept; the rest are counted.
const KEPT: usize = 100;

/// One line that is wrong, and why.
#[derive(Clone, Debug, PartialEq, Eq)]
pub struct Fault {
    /// From 1.
    pub line: usize,
    /// What is wrong with it.
    pub what: String,
}

impl fmt::Display for Fault {
    fn fmt(&self, f: &mut fmt::Formatter<'_>) -> fmt::Result {
        write!(f, "line {}: {}", self.line, self.what)
    }
}

impl std::error::Error for Fault {}

/// Every fault of a text, by line: the first hundred, and how many more there are.
///
/// ```
/// let faults = sorzibelu::text::assemble("locals 1 user 1 parameters 0 references\nnop\nhop\nret t0 t\n").unwrap_err();
/// assert_eq!(faults.len(), 2);
/// assert_eq!(faults.to_string(), "line 3: 'hop' is no instruction: did you mean nop?\nline 4: 't' stands behind the end of the instruction");
/// ```
#[derive(Clone, Debug, Default, PartialEq, Eq)]
pub struct Faults {
    /// The first of them.
    pub first: Vec<Fault>,
    /// How many come behind those.
    pub more: usize,
}

impl Faults {
    /// How many there are.
    #[allow(clippy::len_without_is_empty)]
    pub fn len(&self) -> usize {
        self.first.len() + self.more
    }

    pub(crate) fn add(&mut self, fault: Fault) {
        if self.first.len() < KEPT {
            self.first.push(fault);
        } else {
            self.more += 1;
        }
    }

    /// The value where nothing is wrong.
    pub(crate) fn or<T>(self, value: T) -> Result<T, Faults> {
        if self.first.is_empty() {
            Ok(value)
        } else {
            Err(self)
        }
    }
}

impl From<Fault> for Faults {
    fn from(fault: Fault) -> Faults {
        Faults { first: vec![fault], more: 0 }
    }
}

impl fmt::Display for Faults {
    fn fmt(&self, f: &mut fmt::Formatter<'_>) -> fmt::Result {
        for (i, fault) in self.first.iter().enumerate() {
            write!(f, "{}{fault}", if i == 0 { "" } else { "\n" })?;
        }
        if self.more > 0 {
            write!(f, "\nand {} more", self.more)?;
        }
        Ok(())
    }
}

impl std::error::Error for Faults {}
