//! Marks for a flow table. A row whose successors are right by the answer's own keys is told apart from a new slip.
use super::{
    answer,
    answer::Line,
    report::{Report, Verdict},
    starts::{own_key_first, Starts},
    Kind,
};
use crate::text::{digits, quoted};
use std::collections::HashMap;

/// One block: lower and upper offset, key, keys of the successors.
#[derive(Clone, Debug, PartialEq, Eq)]
pub(super) struct Row {
    pub lower: usize,
    pub upper: usize,
    pub key: usize,
    pub next: Vec<usize>,
}

/// The right table, by the proved call, and reasons for it.
pub(super) struct Right {
    pub rows: Vec<Row>,
    /// The labels that nothing names, in ascending order.
    pub unnamed: Vec<u16>,
    pub starts: Starts,
}

enum Said {
    Row(Row),
    Blocks(usize),
    NeverNamed(Vec<u16>),
    Refused,
}

/// The labels of `never named L3 L7`, nothing where the line does not begin so.
fn never_named(line: &str) -> Option<Result<Vec<u16>, String>> {
    let mut words = line.split_whitespace();
    let mut is = |word: &str| words.next().is_some_and(|w| w.trim_end_matches(':').eq_ignore_ascii_case(word));
    if !is("never") || !is("named") {
        return None;
    }
    let label = |w: &str| digits(w, "L").or(digits(w, "l")).and_then(|d| d.parse().ok()).ok_or_else(|| format!("{} is no label such as L1", quoted(w)));
    Some(words.flat_map(|w| w.split(',')).filter(|w| !w.is_empty()).map(label).collect())
}

/// `0 to 3: key 2, leads to 2 3`, or the numbers alone, 0 filling up or not; `blocks 2`; `never named L3 L7`.
fn read(line: &str) -> Result<Said, String> {
    if let Some(labels) = never_named(line) {
        return labels.map(Said::NeverNamed);
    }
    let words = answer::words(line)?;
    if let Some(refused) = answer::refused(&words) {
        return refused.map(|_| Said::Refused);
    }
    let word = words[0].trim_end_matches(':');
    if word.eq_ignore_ascii_case("blocks") {
        return match words[1..] {
            [count] => Ok(Said::Blocks(answer::number(count)?)),
            _ => Err("'blocks' has one number behind it".into()),
        };
    }
    let mut numbers = vec![];
    for w in words.iter().flat_map(|w| w.split(',')).filter(|w| !w.is_empty()) {
        if ["to", "key", "leads", "block", "-", "->"].iter().any(|x| w.trim_end_matches(':').eq_ignore_ascii_case(x)) {
            continue;
        }
        numbers.push(answer::number(w).map_err(|_| format!("{}: a line is 'LOWER to UPPER: key KEY, leads to KEYS' or 'blocks COUNT'", quoted(w)))?);
    }
    match numbers[..] {
        [lower, upper, key, ref next @ ..] if next.len() <= 3 => {
            let used = next.iter().rposition(|k| *k != 0).map_or(0, |i| i + 1);
            Ok(Said::Row(Row { lower, upper, key, next: next[..used].to_vec() }))
        }
        _ => Err(format!("{} numbers where lower, upper, key and up to two successors should stand", numbers.len())),
    }
}

fn keys(next: &[usize]) -> String {
    if next.is_empty() {
        return "-".into();
    }
    next.iter().map(usize::to_string).collect::<Vec<_>>().join(" ")
}

/// `L3 L7`.
fn all(labels: &[u16]) -> String {
    if labels.is_empty() {
        return "no label".into();
    }
    labels.iter().map(|l| format!("L{l}")).collect::<Vec<_>>().join(" ")
}

/// The marks of an answer to an accepted sheet. The labels that nothing names are not asked, and told where they are wrong.
pub(super) fn mark(right: &Right, lines: &[Line]) -> Report {
    let Right { rows: right, unnamed, starts } = right;
    let mut report = Report::new(Kind::Flow, right.len() + 1);
    let place: HashMap<usize, usize> = right.iter().enumerate().map(|(i, r)| (r.lower, i)).collect();
    let mut given: Vec<Option<(Row, usize)>> = vec![None; right.len()];
    let mut blocks: Option<(usize, usize)> = None;
    let mut labels: Option<usize> = None;
    for line in lines {
        let at = format!("line {}", line.number);
        match read(line.text) {
            Err(why) => report.find(Verdict::Unread, format!("{at}: {why}"), ""),
            Ok(Said::Refused) => report.find(Verdict::Extra, format!("{at}: the sheet is not refused"), ""),
            Ok(Said::Blocks(count)) => match blocks {
                Some((_, before)) => report.find(Verdict::Twice, format!("{at}: blocks was answered in line {before}, which counts"), ""),
                None => blocks = Some((count, line.number)),
            },
            Ok(Said::NeverNamed(mut said)) => match labels {
                Some(before) => report.find(Verdict::Twice, format!("{at}: the labels that nothing names were answered in line {before}, which counts"), ""),
                None => {
                    labels = Some(line.number);
                    said.sort_unstable();
                    if said != *unnamed {
                        report.find_unasked(format!("{at}: never named: {} should stand here", all(unnamed)), "");
                    }
                }
            },
            Ok(Said::Row(row)) => match place.get(&row.lower).map(|i| &mut given[*i]) {
                None => report.find(Verdict::Extra, format!("{at}: no block starts at {}", row.lower), starts.why(row.lower)),
                Some(Some((_, before))) => {
                    let what = format!("{at}: the block that starts at {} was answered in line {before}, which counts", row.lower);
                    report.find(Verdict::Twice, what, "");
                }
                Some(new) => *new = Some((row, line.number)),
            },
        }
    }
    judge(right, starts, &given, &mut report);
    match blocks {
        Some((count, _)) if count == right.len() => report.right += 1,
        Some((count, _)) => {
            report.wrong += 1;
            report.find(Verdict::Wrong, format!("blocks: {count} should be {}", right.len()), "");
        }
        None => {
            report.missing += 1;
            report.find(Verdict::Missing, format!("blocks: {}", right.len()), "");
        }
    }
    report
}

fn judge(right: &[Row], starts: &Starts, given: &[Option<(Row, usize)>], report: &mut Report) {
    // the answer's own key for each right key
    let own: HashMap<usize, usize> = right.iter().zip(given).filter_map(|(r, g)| Some((r.key, g.as_ref()?.0.key))).collect();
    for (r, g) in right.iter().zip(given) {
        let Some((g, _)) = g else {
            report.missing += 1;
            report.find(Verdict::Missing, format!("{} to {}: key {}, leads to {}", r.lower, r.upper, r.key, keys(&r.next)), starts.why(r.lower));
            continue;
        };
        if g == r {
            report.right += 1;
            continue;
        }
        report.wrong += 1;
        let at = format!("block at {}", r.lower);
        if g.upper != r.upper {
            report.find(Verdict::Wrong, format!("{at}, upper: {} should be {}", g.upper, r.upper), starts.why(g.upper.min(r.upper) + 1));
        }
        if g.key != r.key {
            report.find(Verdict::Wrong, format!("{at}, key: {} should be {}", g.key, r.key), "");
        }
        if g.next == r.next {
            continue;
        }
        let mine: Vec<usize> = r.next.iter().map(|k| own.get(k).copied().unwrap_or(*k)).collect();
        if g.next == mine {
            let what = format!("{at}, leads to: {} should be {}", keys(&g.next), keys(&r.next));
            report.find(Verdict::Follows, what, "these are the right blocks by the keys of this answer");
            report.follows += usize::from(g.upper == r.upper && g.key == r.key);
            continue;
        }
        let (missing, extra) = (without(&r.next, &g.next), without(&g.next, &r.next));
        let mut parts = vec![];
        if !missing.is_empty() {
            parts.push(format!("{} {} missing", keys(&missing), if missing.len() > 1 { "are" } else { "is" }));
        }
        if !extra.is_empty() {
            parts.push(format!("{} should not be there", keys(&extra)));
        }
        if parts.is_empty() {
            parts.push(format!("the order of {} should be {}", keys(&g.next), keys(&r.next)));
        }
        let to: Vec<String> = r.next.iter().map(|k| right.iter().find(|x| x.key == *k).map_or("the exit".into(), |x| format!("the block at {}", x.lower))).collect();
        report.find(Verdict::Wrong, format!("{at}, leads to: {}", parts.join("; ")), format!("it leads to {}", to.join(" and to ")));
    }
    let mine: Option<Vec<usize>> = given.iter().map(|g| g.as_ref().map(|(row, _)| row.key)).collect();
    if report.wrong > 0 && mine.is_some_and(|m| m == own_key_first(right)) {
        report.remark = "each block takes its key before its successors in this answer: the successors come first".into();
    }
}

/// What is left of a list when each of another is taken out once.
fn without(list: &[usize], other: &[usize]) -> Vec<usize> {
    let mut left = list.to_vec();
    for k in other {
        if let Some(i) = left.iter().position(|x| x == k) {
            left.remove(i);
        }
    }
    left
}
