//! Marks for a dying list: nodes that are missing, that should not be there, and that stand at a wrong place.
use super::{
    answer,
    answer::Line,
    report::{Report, Verdict},
    Kind,
};
use crate::{graph::Reason, text::quoted};

/// The right list by the proved call, and why each node of the graph dies or stays.
pub(super) struct Right {
    pub listed: Vec<u32>,
    pub reasons: Vec<Reason>,
    /// Parent, child, edge.
    pub triples: Vec<u32>,
}

enum Said {
    Node(u32),
    None,
    Refused,
}

/// `2 1 0`, `2, 1, 0`, one a line, a remark behind a colon, or `-` for none.
fn read(line: &str) -> Result<Vec<Said>, String> {
    let line = line.split_once(':').map_or(line, |(node, _)| node);
    let words = answer::words(line)?;
    if let Some(refused) = answer::refused(&words) {
        return refused.map(|_| vec![Said::Refused]);
    }
    let parts = words.iter().flat_map(|w| w.split(',')).filter(|w| !w.is_empty());
    parts
        .map(|w| match w {
            "-" | "none" => Ok(Said::None),
            _ => answer::number(w).ok().and_then(|n| u32::try_from(n).ok()).map(Said::Node).ok_or(format!("{} is no node", quoted(w))),
        })
        .collect()
}

/// The marks of an answer to an accepted pair. Where nothing dies, one thing is asked: to say so.
pub(super) fn mark(right: &Right, lines: &[Line]) -> Report {
    let mut report = Report::new(Kind::Dying, right.listed.len().max(1));
    let mut given: Vec<u32> = vec![];
    let mut none = false;
    for line in lines {
        let at = format!("line {}", line.number);
        match read(line.text) {
            Err(why) => report.find(Verdict::Unread, format!("{at}: {why}"), ""),
            Ok(said) => {
                for said in said {
                    match said {
                        Said::Refused => report.find(Verdict::Extra, format!("{at}: the graphs are not refused"), ""),
                        Said::None => none = true,
                        Said::Node(x) if x as usize >= right.reasons.len() => report.find(Verdict::Extra, format!("{at}: {x} is no node of the graph"), ""),
                        Said::Node(x) if given.contains(&x) => report.find(Verdict::Twice, format!("{at}: {x} was listed before"), ""),
                        Said::Node(x) => given.push(x),
                    }
                }
            }
        }
    }
    judge(right, &given, none, &mut report);
    report
}

fn judge(right: &Right, given: &[u32], none: bool, report: &mut Report) {
    if right.listed.is_empty() {
        match (none, given.is_empty()) {
            (true, true) => report.right = 1,
            (false, true) => {
                report.missing = 1;
                report.find(Verdict::Missing, "none: no node dies", "");
            }
            _ => report.wrong = 1,
        }
    } else if none {
        let what = if given.is_empty() { "none: some nodes die" } else { "none stands beside nodes" };
        report.find_unasked(what, "");
    }
    let both: Vec<u32> = given.iter().copied().filter(|x| right.listed.contains(x)).collect();
    let kept = in_order(&right.listed, &both);
    for (i, x) in right.listed.iter().enumerate() {
        let Reason { why: reason, child: came, .. } = &right.reasons[*x as usize];
        if kept.contains(x) {
            report.right += 1;
        } else if both.contains(x) {
            report.wrong += 1;
            let before = if i == 0 { "first".into() } else { format!("behind {}", right.listed[i - 1]) };
            report.find(Verdict::Wrong, format!("{x} dies, but stands at a wrong place: it comes {before}"), reason.clone());
        } else {
            report.missing += 1;
            let follows = came.is_some_and(|c| !given.contains(&c));
            let why = if follows { format!("{reason}; it follows from the missing {}", came.unwrap_or(0)) } else { reason.clone() };
            report.find(Verdict::Missing, format!("{x} is missing"), why);
            report.follows += usize::from(follows);
        }
    }
    for x in given.iter().filter(|x| !right.listed.contains(x)) {
        let Reason { why, idle, .. } = &right.reasons[*x as usize];
        let child = right.triples.chunks_exact(3).find(|t| t[0] == *x && t[1] != *x && given.contains(&t[1])).map(|t| t[1]);
        let why = match child.filter(|_| *idle) {
            Some(child) => format!("{why}; it follows from {child}, which should not be there"),
            None => why.clone(),
        };
        report.follows += usize::from(*idle && child.is_some());
        report.find(Verdict::Extra, format!("{x} should not be there"), why);
    }
}

/// The nodes of the longest part of the second list that stands in the order of the first.
fn in_order(right: &[u32], given: &[u32]) -> Vec<u32> {
    let place = |x: &u32| right.iter().position(|r| r == x).unwrap_or(0);
    // the longest ascending run of places that ends at each
    let mut best: Vec<Vec<u32>> = vec![];
    for (i, x) in given.iter().enumerate() {
        let before = (0..i).filter(|j| place(&given[*j]) < place(x)).max_by_key(|j| (best[*j].len(), usize::MAX - j));
        let mut run = before.map_or(vec![], |j| best[j].clone());
        run.push(*x);
        best.push(run);
    }
    best.into_iter().reduce(|a, b| if b.len() > a.len() { b } else { a }).unwrap_or_default()
}
