//! One line of a text, word by word, and what is said where another word should stand.
use super::Fault;
use std::{iter::Peekable, str::SplitWhitespace};

/// A word as it is shown in a fault: in quotes, cut where it is long.
pub(crate) fn quoted(word: &str) -> String {
    match word.char_indices().nth(40) {
        Some((at, _)) => format!("'{}..'", &word[..at]),
        None => format!("'{word}'"),
    }
}

/// `: did you mean Not?`, where a name is near to the word, else nothing. Upper and lower case count for nothing.
pub(crate) fn hint<'n>(word: &str, names: impl IntoIterator<Item = &'n str>) -> String {
    let word = word.trim_matches(|c: char| c.is_ascii_punctuation());
    let near = |name: &str| {
        let most = (name.len().min(word.len()) / 3).min(2);
        if word.len().abs_diff(name.len()) > most {
            return None;
        }
        distance(word.as_bytes(), name.as_bytes()).filter(|far| *far <= most)
    };
    let best = names.into_iter().filter_map(|n| near(n).map(|far| (far, n))).min_by_key(|(far, _)| *far);
    best.map_or(String::new(), |(_, name)| format!(": did you mean {name}?"))
}

/// How many letters are put in, left out or changed, or stand in each other's place; nothing for words longer than any name.
fn distance(a: &[u8], b: &[u8]) -> Option<usize> {
    const MOST: usize = 24;
    if a.len() >= MOST || b.len() >= MOST {
        return None;
    }
    let same = |i: usize, j: usize| a[i].eq_ignore_ascii_case(&b[j]);
    let mut cost = [[0u8; MOST]; MOST];
    for i in 0..=a.len() {
        for j in 0..=b.len() {
            cost[i][j] = match (i, j) {
                (0, _) | (_, 0) => (i + j) as u8,
                _ => (cost[i - 1][j - 1] + u8::from(!same(i - 1, j - 1))).min(cost[i][j - 1] + 1).min(cost[i - 1][j] + 1),
            };
            if i > 1 && j > 1 && same(i - 1, j - 2) && same(i - 2, j - 1) {
                cost[i][j] = cost[i][j].min(cost[i - 2][j - 2] + 1);
            }
        }
    }
    Some(cost[a.len()][b.len()].into())
}

/// A number behind a prefix, such as `t3`, whatever its size.
pub(crate) fn digits<'a>(word: &'a str, prefix: &str) -> Option<&'a str> {
    word.strip_prefix(prefix).filter(|d| !d.is_empty() && d.bytes().all(|c| c.is_ascii_digit()))
}

/// The lines of a text: without a byte order mark, each with its number, in words, comments (`//`) left out, empty ones too.
pub(crate) fn lines(text: &str) -> impl Iterator<Item = Words<'_>> {
    let text = text.strip_prefix('\u{feff}').unwrap_or(text);
    text.lines().enumerate().filter_map(|(i, l)| {
        let mut words = l.split("//").next().unwrap_or("").split_whitespace().peekable();
        words.peek()?;
        Some(Words { line: i + 1, left: words })
    })
}

/// The words of one line that are left.
pub(crate) struct Words<'a> {
    pub line: usize,
    left: Peekable<SplitWhitespace<'a>>,
}

impl<'a> Words<'a> {
    pub fn fault<T>(&self, what: impl Into<String>) -> Result<T, Fault> {
        Err(Fault { line: self.line, what: what.into() })
    }

    pub fn peek(&mut self) -> Option<&'a str> {
        self.left.peek().copied()
    }

    pub fn next(&mut self) -> Option<&'a str> {
        self.left.next()
    }

    pub fn take(&mut self, wanted: &str) -> Result<&'a str, Fault> {
        match self.left.next() {
            Some(w) => Ok(w),
            None => self.fault(format!("the line ends where {wanted} should stand")),
        }
    }

    pub fn word(&mut self, word: &str) -> Result<(), Fault> {
        match self.take(&format!("'{word}'"))? {
            w if w == word => Ok(()),
            w => self.fault(format!("{} where '{word}' should stand", quoted(w))),
        }
    }

    /// A number in decimal behind a prefix.
    pub fn number<N: TryFrom<u64>>(&mut self, prefix: &str, wanted: &str) -> Result<N, Fault> {
        let w = self.take(wanted)?;
        match digits(w, prefix).map(|d| d.parse::<u64>().ok().and_then(|n| N::try_from(n).ok())) {
            Some(Some(n)) => Ok(n),
            Some(None) => self.fault(format!("{} is too large for {wanted}", quoted(w))),
            None => self.fault(format!("{} is not {wanted}{}", quoted(w), other_prefix(w, prefix))),
        }
    }

    /// The next words while they are locals, at most so many.
    pub fn locals(&mut self, most: usize) -> Result<Vec<u8>, Fault> {
        let mut xs = vec![];
        while self.peek().is_some_and(|w| digits(w, "t").is_some()) {
            xs.push(self.local()?);
            if xs.len() > most {
                return self.fault(format!("{} locals where at most {most} can stand", xs.len()));
            }
        }
        Ok(xs)
    }

    pub fn local(&mut self) -> Result<u8, Fault> {
        self.number("t", "a local such as t0")
    }

    pub fn label(&mut self) -> Result<u16, Fault> {
        self.number("L", "a label such as L1")
    }

    pub fn one_of(&mut self, names: &[&str], wanted: &str) -> Result<u8, Fault> {
        let w = self.take(wanted)?;
        match names.iter().position(|n| *n == w) {
            Some(i) => Ok(i as u8),
            None => self.fault(format!("{} is not {wanted}{}", quoted(w), hint(w, names.iter().copied()))),
        }
    }

    /// Nothing is left.
    pub fn end(&mut self, of: &str) -> Result<(), Fault> {
        match self.left.next() {
            Some(w) => {
                let hint = match w.chars().next() {
                    Some('t' | 'T') => other_prefix(w, "t"),
                    Some('l' | 'L') => other_prefix(w, "L"),
                    _ => String::new(),
                };
                // a word that is well formed needs no hint
                let hint = if hint.contains(&format!(" {w}?")) { String::new() } else { hint };
                self.fault(format!("{} stands behind the end of {of}{hint}", quoted(w)))
            }
            None => Ok(()),
        }
    }
}

/// The hint for a number behind the prefix in the other case, or with a comma.
fn other_prefix(word: &str, prefix: &str) -> String {
    let bare = word.trim_end_matches([',', ';', ':', '.']);
    let inner = bare.strip_prefix(['t', 'T', 'l', 'L', '#', '@']).unwrap_or(bare);
    let same = bare.len() > inner.len() && bare[..bare.len() - inner.len()].eq_ignore_ascii_case(prefix);
    let fits = !prefix.is_empty() && digits(inner, "").is_some() && inner.len() < 10 && (same || bare == inner);
    if fits { format!(": did you mean {prefix}{inner}?") } else { String::new() }
}
