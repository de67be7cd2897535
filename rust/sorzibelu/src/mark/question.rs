//! What is asked: a sheet or a pair of graphs, and the right answers to it by the proved calls.
use super::{answer, answer::Line, dying, fates::Fates, flow, live, live::Refused, report::Report, rewritten, rules::Rules, starts::Starts, Kind};
use crate::{
    blocks, graph, live_sets, never_named, rewritten as rewrite,
    sheet::{why, Sheet},
    text, Block, Refusal,
};

type Answer<T> = Result<T, Refused>;

enum Asked {
    Sheet(Box<OfSheet>),
    Pair(Answer<dying::Right>),
}

/// What is asked of a sheet.
struct OfSheet {
    live: Answer<live::Right>,
    flow: Answer<flow::Right>,
    rewritten: Answer<rewritten::Right>,
}

/// A sheet or a pair of graphs, with its right answers.
///
/// ```
/// use sorzibelu::{mark::Question, text};
/// let m1 = text::read("locals 1 user 1 parameters 1 references\nret t0\n").unwrap();
/// let report = Question::sheet(&m1.bytes).mark(b"0 - -\ntaken 3\n", None).unwrap();
/// assert_eq!(report.findings[0].what, "0 before: t0 is missing");
/// assert_eq!((report.right, report.asked), (1, 2));
/// ```
pub struct Question(Asked);

impl Question {
    /// Of a sheet's bytes, accepted or not.
    ///
    /// ```
    /// use sorzibelu::mark::Question;
    /// assert!(Question::sheet(&[0; 100]).mark(b"refused 1 0", None).unwrap().all_right());
    /// ```
    pub fn sheet(bytes: &[u8]) -> Question {
        let refused = |r: Refusal| Refused { number: r.number(), place: r.place(), why: why(bytes, r) };
        let live = |sheet: &Sheet| -> Result<live::Right, Refusal> {
            let l = live_sets(bytes)?;
            Ok(live::Right { rules: Rules::new(sheet), sets: l.sets.iter().map(|s| [s.before, s.after]).collect(), taken: l.taken })
        };
        let row = |b: Block| {
            let next = b.leads_to().map(usize::from).collect();
            flow::Row { lower: b.lower.into(), upper: b.upper.into(), key: b.key.into(), next }
        };
        let flow = |sheet: &Sheet| -> Result<flow::Right, Refusal> {
            let rows = blocks(bytes)?.into_iter().map(row).collect();
            let mut unnamed = never_named(bytes)?;
            unnamed.sort_unstable();
            Ok(flow::Right { rows, unnamed, starts: Starts::new(sheet) })
        };
        let rewritten = |sheet: &Sheet| -> Result<rewritten::Right, Refusal> {
            let new = Sheet::try_from(&rewrite(bytes)?[..])?;
            let fates = Fates::new(sheet, &live(sheet)?.sets, &new.code);
            Ok(rewritten::Right { sheet: new, fates })
        };
        let sheet = Sheet::try_from(bytes);
        let sheet = sheet.as_ref().map_err(|r| *r);
        Question(Asked::Sheet(Box::new(OfSheet {
            live: sheet.and_then(live).map_err(refused),
            flow: sheet.and_then(flow).map_err(refused),
            rewritten: sheet.and_then(rewritten).map_err(refused),
        })))
    }

    /// Of a pair of graphs, accepted or not.
    ///
    /// ```
    /// use sorzibelu::{graph::Owned, mark::Question};
    /// let chain = [[0, 1, 0], [1, 2, 0]];
    /// let m7 = Question::pair(&Owned::new(3, &[2], &chain), &Owned::new(3, &[], &chain));
    /// assert!(m7.mark(b"2 1 0\n", None).unwrap().all_right());
    /// ```
    pub fn pair(this: &graph::Owned, next: &graph::Owned) -> Question {
        let right = graph::reasons(this, next).map(|(listed, reasons)| dying::Right { listed, reasons, triples: this.triples.clone() });
        let why = |r| graph::why(&[this.graph(), next.graph()], None, r);
        Question(Asked::Pair(right.map_err(|r| Refused { number: r.number(), place: r.place(), why: why(r) })))
    }

    /// Of a file: a sheet's bytes, its text, or the text of a pair of graphs, told apart by the content. Or what is wrong with it.
    ///
    /// ```
    /// use sorzibelu::mark::Question;
    /// assert!(Question::of_file(b"locals 0 user 0 parameters 0 references\nret\n").is_ok());
    /// assert!(Question::of_file(b"nodes 1\nlive\n").is_err_and(|why| why.contains("one graph")));
    /// ```
    pub fn of_file(bytes: &[u8]) -> Result<Question, String> {
        if is_wide(bytes) {
            return Err("a text in UTF-16: it has to be saved as UTF-8".into());
        }
        // some bytes of every sheet are 0, and a text is mostly letters, signs and blanks
        let plain = bytes.iter().filter(|b| b.is_ascii_graphic() || b.is_ascii_whitespace()).count();
        if bytes.contains(&0) || 2 * plain <= bytes.len() {
            return Ok(Question::sheet(bytes));
        }
        let text = std::str::from_utf8(bytes).map_err(|e| {
            let line = 1 + bytes[..e.valid_up_to()].iter().filter(|b| **b == b'\n').count();
            format!("line {line}: a letter that is not UTF-8")
        })?;
        if !graph::is_text(text) {
            return Ok(Question::sheet(&text::read(text).map_err(|f| f.to_string())?.bytes));
        }
        let pair = graph::read(text).map_err(|f| f.to_string())?;
        match pair.next() {
            Some(next) => Ok(Question::pair(pair.this(), next)),
            None => Err("one graph, and answers are marked for a pair: 'this' and 'next'".into()),
        }
    }

    /// The marks of one answer, of the kind that is asked, else that its first word names. Or why it cannot be marked at all.
    ///
    /// ```
    /// use sorzibelu::mark::{Kind, Question};
    /// let m1 = Question::of_file(b"locals 1 user 1 parameters 1 references\nret t0\n").unwrap();
    /// assert!(m1.mark(b"flow\n0 to 0: key 2, leads to 1\nblocks 1\n", None).unwrap().all_right());
    /// assert!(m1.mark(b"ret t0", Some(Kind::Rewritten)).unwrap().all_right());
    /// ```
    pub fn mark(&self, answer: &[u8], kind: Option<Kind>) -> Result<Report, String> {
        self.marks(answer, kind).map(|mut all| all.swap_remove(0))
    }

    /// The marks of an answer in several parts, each under the name of its kind: a report for each part that is asked of this sheet or pair.
    ///
    /// ```
    /// use sorzibelu::mark::{Kind, Question};
    /// let m1 = Question::of_file(b"locals 1 user 1 parameters 1 references\nret t0\n").unwrap();
    /// let reports = m1.marks(b"flow\n0 0 2 1\nblocks 1\n\nlive\n0 t0 -\ntaken 3\n", None).unwrap();
    /// assert!(reports.len() == 2 && reports.iter().all(|r| r.all_right()));
    /// ```
    pub fn marks(&self, answer: &[u8], kind: Option<Kind>) -> Result<Vec<Report>, String> {
        if is_wide(answer) {
            return Err("a text in UTF-16: it has to be saved as UTF-8".into());
        }
        if answer.contains(&0) {
            return self.mark_bytes(answer, kind).map(|r| vec![r]);
        }
        let text = String::from_utf8_lossy(answer);
        let parts = answer::parts(&text, kind.unwrap_or(self.first()));
        let asked: Vec<Report> = parts.iter().filter(|(k, _)| kind.unwrap_or(*k) == *k).filter_map(|(k, lines)| self.part(*k, lines)).collect();
        if !asked.is_empty() {
            return Ok(asked);
        }
        let told = parts[0].0;
        Err(match (&self.0, kind) {
            (_, Some(kind)) if kind != told => format!("an answer of kind {told}, where {kind} is asked"),
            (Asked::Sheet(_), _) => format!("{told} is asked of a pair of graphs, and this is a sheet"),
            (Asked::Pair(_), _) => format!("{told} is asked of a sheet, and this is a pair of graphs"),
        })
    }

    /// The kind of an answer that names none.
    fn first(&self) -> Kind {
        match self.0 {
            Asked::Sheet(_) => Kind::Live,
            Asked::Pair(_) => Kind::Dying,
        }
    }

    /// The marks of one part, none where this is not asked.
    fn part(&self, kind: Kind, lines: &[Line]) -> Option<Report> {
        let refused = |r: &Refused| live::mark_refused(kind, r, lines);
        match (&self.0, kind) {
            (Asked::Sheet(s), Kind::Live) => Some(s.live.as_ref().map_or_else(refused, |right| live::mark(right, lines))),
            (Asked::Sheet(s), Kind::Flow) => Some(s.flow.as_ref().map_or_else(refused, |right| flow::mark(right, lines))),
            (Asked::Sheet(s), Kind::Rewritten) => Some(s.rewritten.as_ref().map_or_else(refused, |right| rewritten::mark(right, lines))),
            (Asked::Pair(right), Kind::Dying) => Some(right.as_ref().map_or_else(refused, |right| dying::mark(right, lines))),
            _ => None,
        }
    }

    /// The marks of bytes that are no text: rewritten code can be a sheet.
    fn mark_bytes(&self, answer: &[u8], kind: Option<Kind>) -> Result<Report, String> {
        match (&self.0, kind) {
            (Asked::Sheet(s), Some(Kind::Rewritten)) => {
                let given = Sheet::try_from(answer).map_err(|r| format!("not a text, and as a sheet {r}"))?;
                Ok(match &s.rewritten {
                    Ok(right) => rewritten::mark_bytes(right, &given),
                    Err(r) => live::mark_refused(Kind::Rewritten, r, &[]),
                })
            }
            _ => Err("not a text".into()),
        }
    }
}

/// Two bytes a letter, by the mark in front.
fn is_wide(bytes: &[u8]) -> bool {
    bytes.starts_with(&[0xff, 0xfe]) || bytes.starts_with(&[0xfe, 0xff])
}
