//! What marking one answer comes to: findings in words, and counts.
use super::Kind;
use std::fmt;

/// How many lines that cannot be read, stand twice or are not asked are shown; the rest are counted.
const SHOWN: usize = 20;

/// What is found of one thing that is asked, or of one line.
#[derive(Clone, Copy, Debug, PartialEq, Eq)]
pub enum Verdict {
    /// Wrong, and new: it does not follow from what else is answered.
    Wrong,
    /// Wrong, but as it follows from an earlier slip of the same answer.
    Follows,
    /// Wrong, though it obeys every rule: the sets are not the least.
    NotLeast,
    /// Asked, and not answered.
    Missing,
    /// Answered, and not asked.
    Extra,
    /// Answered in an earlier line, which counts.
    Twice,
    /// A line that cannot be read.
    Unread,
}

impl Verdict {
    fn name(self) -> &'static str {
        match self {
            Verdict::Wrong => "wrong",
            Verdict::Follows => "follows",
            Verdict::NotLeast => "not least",
            Verdict::Missing => "missing",
            Verdict::Extra => "extra",
            Verdict::Twice => "twice",
            Verdict::Unread => "unread",
        }
    }
}

/// One finding.
#[derive(Clone, Debug, PartialEq, Eq)]
pub struct Finding {
    /// What sort it is of.
    pub verdict: Verdict,
    /// Where and what, as `1 before: t1 is missing`.
    pub what: String,
    /// Why, empty where there is nothing to say.
    pub why: String,
}

/// The marks of one answer. `asked` is `right` and `wrong` and `missing`.
#[derive(Clone, Debug, PartialEq, Eq)]
pub struct Report {
    /// What was answered.
    pub kind: Kind,
    /// How many lines or nodes are asked.
    pub asked: usize,
    /// How many of them are right.
    pub right: usize,
    /// How many are answered, and not right.
    pub wrong: usize,
    /// How many are not answered, or not in a line that can be read.
    pub missing: usize,
    /// How many of the wrong, missing or extra ones only follow from an earlier slip.
    pub follows: usize,
    /// How many of the wrong ones obey every rule but are not the least.
    pub not_least: usize,
    /// How many things are answered that are not asked, wrong headings among them.
    pub extra: usize,
    /// How many lines answer again what an earlier line answered.
    pub twice: usize,
    /// How many lines cannot be read.
    pub unread: usize,
    /// What is said of each, in order.
    pub findings: Vec<Finding>,
    /// What is said of the answer as a whole, empty where there is nothing to say.
    pub remark: String,
}

impl Report {
    pub(super) fn new(kind: Kind, asked: usize) -> Report {
        let zero = 0;
        Report {
            kind,
            asked,
            right: zero,
            wrong: zero,
            missing: zero,
            follows: zero,
            not_least: zero,
            extra: zero,
            twice: zero,
            unread: zero,
            findings: vec![],
            remark: String::new(),
        }
    }

    /// All that is asked is right, and nothing else stands in the answer.
    ///
    /// ```
    /// use sorzibelu::mark::Question;
    /// let m1 = Question::of_file(b"locals 1 user 1 parameters 1 references\nret t0\n").unwrap();
    /// assert!(m1.mark(b"0 t0 -\ntaken 3\n", None).unwrap().all_right());
    /// assert!(!m1.mark(b"0 t0 -\ntaken 3\n1 - -\n", None).unwrap().all_right());
    /// ```
    pub fn all_right(&self) -> bool {
        self.right == self.asked && self.extra + self.twice + self.unread == 0
    }

    /// What is not asked, and wrong where it is answered.
    pub(super) fn find_unasked(&mut self, what: impl Into<String>, why: impl Into<String>) {
        self.extra += 1;
        self.find(Verdict::Wrong, what, why);
    }

    pub(super) fn find(&mut self, verdict: Verdict, what: impl Into<String>, why: impl Into<String>) {
        let count = match verdict {
            Verdict::Extra => &mut self.extra,
            Verdict::Twice => &mut self.twice,
            Verdict::Unread => &mut self.unread,
            _ => &mut 0,
        };
        *count += 1;
        if *count <= SHOWN {
            self.findings.push(Finding { verdict, what: what.into(), why: why.into() });
        }
    }
}

/// The findings, one a line and its reason on the next, and the counts in a last line.
impl fmt::Display for Report {
    fn fmt(&self, f: &mut fmt::Formatter<'_>) -> fmt::Result {
        for x in &self.findings {
            writeln!(f, "{:<10} {}", x.verdict.name(), x.what)?;
            if !x.why.is_empty() {
                writeln!(f, "{:<10} {}", "", x.why)?;
            }
        }
        for (count, what) in [(self.unread, "cannot be read"), (self.twice, "stand twice"), (self.extra, "are not asked")] {
            if count > SHOWN {
                writeln!(f, "and {} more that {what}", count - SHOWN)?;
            }
        }
        if !self.remark.is_empty() {
            writeln!(f, "{}", self.remark)?;
        }
        write!(f, "{} of {} right", self.right, self.asked)?;
        for (count, what) in [
            (self.wrong, "wrong"),
            (self.missing, "missing"),
            (self.extra, "not asked"),
            (self.twice, "twice"),
            (self.unread, "not read"),
        ] {
            if count > 0 {
                write!(f, ", {count} {what}")?;
            }
        }
        let s = |count: usize| if count == 1 { "s" } else { "" };
        if self.follows > 0 {
            write!(f, "; {} of these only follow{} from an earlier slip", self.follows, s(self.follows))?;
        }
        if self.not_least > 0 {
            write!(f, "; {} of these obey{} the rules, but not with the least sets", self.not_least, s(self.not_least))?;
        }
        writeln!(f)
    }
}

/// The names of the columns of `row`.
pub(super) const COLUMNS: &str = "file,kind,asked,right,wrong,missing,follows,not_least,extra,twice,unread,percent,note";

/// A field of CSV: in quotes where it needs them.
pub(super) fn field(s: &str) -> String {
    if s.contains([',', '"', '\n', '\r']) || s.starts_with(['=', '+', '-', '@']) {
        format!("\"{}\"", s.replace('"', "\"\""))
    } else {
        s.into()
    }
}

/// One line of CSV.
pub(super) fn row(file: &str, report: &Report) -> String {
    let r = report;
    let percent = r.right as f64 * 100.0 / r.asked.max(1) as f64;
    let counts = [r.asked, r.right, r.wrong, r.missing, r.follows, r.not_least, r.extra, r.twice, r.unread].map(|n| n.to_string()).join(",");
    format!("{},{},{counts},{percent:.1},{}\n", field(file), r.kind, field(&r.remark))
}

/// The line of CSV of an answer that cannot be read.
pub(super) fn unread_row(file: &str, why: &str) -> String {
    format!("{},,,,,,,,,,,,{}\n", field(file), field(why))
}
