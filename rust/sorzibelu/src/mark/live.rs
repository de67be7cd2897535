//! Marks for live sets. A wrong set that follows from the answer's own sets beside it is told apart from a new slip, and sets that obey every rule from both.
use super::{
    answer,
    answer::Line,
    names,
    report::{Report, Verdict},
    rules::{Rules, Side},
    Kind,
};
use crate::text::quoted;

/// The right live sets, by the proved call.
#[derive(Clone, Debug)]
pub(super) struct Right {
    pub rules: Rules,
    pub sets: Vec<[u64; 2]>,
    pub taken: u32,
}

/// What one line says.
enum Said {
    Sets(usize, [Option<u64>; 2]),
    Taken(usize),
    Refused,
}

fn read(line: &str) -> Result<Said, String> {
    let words = answer::words(line)?;
    if let Some(refused) = answer::refused(&words) {
        return refused.map(|_| Said::Refused);
    }
    if words[0].trim_end_matches(':').eq_ignore_ascii_case("taken") {
        return match words[1..] {
            [count] => Ok(Said::Taken(answer::number(count)?)),
            _ => Err("'taken' has one number behind it".into()),
        };
    }
    let offset = answer::number(words[0]).map_err(|e| format!("{e}: a line is 'OFFSET BEFORE AFTER', 'taken COUNT' or 'refused NUMBER PLACE'"))?;
    let rest = &words[1..];
    let side = |w: &str| {
        let w = w.trim_end_matches([':', '=']);
        [Side::Before, Side::After].into_iter().find(|s| w.eq_ignore_ascii_case(s.name()))
    };
    if rest.iter().any(|w| side(w).is_some()) {
        return sides(rest, side).map(|s| Said::Sets(offset, s));
    }
    let bar = |w: &&str| matches!(*w, "|" | ";" | "/");
    let two: Vec<&[&str]> = if rest.iter().any(bar) { rest.split(bar).collect() } else { rest.chunks(1).collect() };
    match two[..] {
        [before, after] => Ok(Said::Sets(offset, [Some(answer::set(before)?), Some(answer::set(after)?)])),
        _ if rest.len() < 2 => Err("two sets are asked, before and after".into()),
        _ => Err("before and after cannot be told apart: put a bar between them, as in '0 t0 t1 | t1'".into()),
    }
}

/// `before t0 t1, after t1`, in any order, or one of them.
fn sides(words: &[&str], side: impl Fn(&str) -> Option<Side>) -> Result<[Option<u64>; 2], String> {
    let mut sets = [None; 2];
    let mut at = 0;
    while at < words.len() {
        let Some(s) = side(words[at]) else {
            return Err(format!("{} stands before 'before' and 'after'", quoted(words[at])));
        };
        let end = (at + 1..words.len()).find(|i| side(words[*i]).is_some()).unwrap_or(words.len());
        let set = answer::set(&words[at + 1..end]).map_err(|e| format!("{}: {e}", s.name()))?;
        if sets[s as usize].replace(set).is_some() {
            return Err(format!("'{}' stands twice", s.name()));
        }
        at = end;
    }
    Ok(sets)
}

/// The marks of an answer to an accepted sheet.
pub(super) fn mark(right: &Right, lines: &[Line]) -> Report {
    let n = right.sets.len();
    let mut report = Report::new(Kind::Live, n + 1);
    let mut given: Vec<[Option<u64>; 2]> = vec![[None; 2]; n];
    let mut answered: Vec<usize> = vec![0; n];
    let mut taken: Option<(usize, usize)> = None;
    for line in lines {
        let at = format!("line {}", line.number);
        match read(line.text) {
            Err(why) => report.find(Verdict::Unread, format!("{at}: {why}"), ""),
            Ok(Said::Refused) => report.find(Verdict::Extra, format!("{at}: the sheet is not refused"), ""),
            Ok(Said::Taken(count)) => match taken {
                Some((_, before)) => report.find(Verdict::Twice, format!("{at}: taken was answered in line {before}, which counts"), ""),
                None => taken = Some((count, line.number)),
            },
            Ok(Said::Sets(offset, _)) if offset >= n => report.find(Verdict::Extra, format!("{at}: the sheet has no offset {offset}"), ""),
            Ok(Said::Sets(offset, sets)) => {
                let new = &mut given[offset];
                if (0..2).any(|s| new[s].is_some() && sets[s].is_some()) {
                    report.find(Verdict::Twice, format!("{at}: {offset} was answered in line {}, which counts", answered[offset]), "");
                    continue;
                }
                answered[offset] = line.number;
                (0..2).for_each(|s| new[s] = new[s].or(sets[s]));
            }
        }
    }
    judge(right, &given, &mut report);
    match taken {
        Some((count, _)) if count == right.taken as usize => report.right += 1,
        Some((count, _)) => {
            report.wrong += 1;
            report.find(Verdict::Wrong, format!("taken: {count} should be {}", right.taken), "");
        }
        None => {
            report.missing += 1;
            report.find(Verdict::Missing, format!("taken: {}", right.taken), "");
        }
    }
    report
}

/// What is wrong with a side: the locals of each sort.
#[derive(Clone, Copy, Default)]
struct Wrong {
    /// Do not follow from the answer's own sets.
    new: u64,
    /// Follow from a slip elsewhere.
    follow: u64,
    /// Obey every rule, but only as each holds up the next one round a loop.
    least: u64,
}

fn judge(right: &Right, given: &[[Option<u64>; 2]], report: &mut Report) {
    // where nothing is answered the right set stands in
    let own: Vec<[u64; 2]> = given.iter().zip(&right.sets).map(|(g, r)| [g[0].unwrap_or(r[0]), g[1].unwrap_or(r[1])]).collect();
    let wrong = sort(right, &own, given);
    let mut obeyed = true;
    for (k, sides) in wrong.iter().enumerate() {
        let known = given[k].iter().flatten().count();
        if known == 0 {
            report.missing += 1;
            let [before, after] = right.sets[k];
            report.find(Verdict::Missing, format!("{k}: before {}, after {}", names(before), names(after)), "");
            continue;
        }
        for side in [Side::Before, Side::After] {
            finding(right, &own, given, &wrong, k, side, report);
        }
        let all = |pick: fn(&Wrong) -> u64| pick(&sides[0]) | pick(&sides[1]);
        let (new, follow, least) = (all(|w| w.new), all(|w| w.follow), all(|w| w.least));
        obeyed &= new | follow == 0 && known == 2;
        if known < 2 || new | follow | least != 0 {
            report.wrong += 1;
            report.follows += usize::from(known == 2 && new == 0 && follow != 0);
            report.not_least += usize::from(known == 2 && new | follow == 0);
        } else {
            report.right += 1;
        }
    }
    if obeyed && report.not_least > 0 && report.missing == 0 && right.rules.breaches(&own).is_empty() {
        report.remark = "these sets obey every live rule, but are not the least that do".into();
    }
}

/// The wrong locals of every side, by where they come from.
fn sort(right: &Right, own: &[[u64; 2]], given: &[[Option<u64>; 2]]) -> Vec<[Wrong; 2]> {
    let rules = &right.rules;
    let n = own.len();
    let mut off = vec![[0u64; 2]; n];
    let mut all = vec![[Wrong::default(); 2]; n];
    for k in 0..n {
        let gives = [rules.before(k, own[k][1]), rules.after(k, own)];
        for s in 0..2 {
            off[k][s] = own[k][s] ^ right.sets[k][s];
            if given[k][s].is_some() {
                all[k][s].new = off[k][s] & (own[k][s] ^ gives[s]);
            }
        }
    }
    // what comes from a slip: from the last offset to the first, until nothing is added
    let mut more = true;
    while more {
        more = false;
        for k in (0..n).rev() {
            let slipped = |w: &[Wrong; 2], s: usize| w[s].new | w[s].follow;
            let from = rules.successors(k).iter().fold(0, |m, s| m | slipped(&all[*s], 0));
            for (s, from) in [(1, from), (0, 0)] {
                let from = if s == 0 { rules.carried(k, slipped(&all[k], 1)) } else { from };
                let add = off[k][s] & from & !all[k][s].new;
                more |= add & !all[k][s].follow != 0;
                all[k][s].follow |= add;
            }
        }
    }
    for k in 0..n {
        for s in 0..2 {
            let w = &mut all[k][s];
            w.least = off[k][s] & !w.new & !w.follow;
        }
    }
    all
}

/// What is said of one side of one offset.
fn finding(right: &Right, own: &[[u64; 2]], given: &[[Option<u64>; 2]], wrong: &[[Wrong; 2]], k: usize, side: Side, report: &mut Report) {
    let s = side as usize;
    let name = side.name();
    let fine = right.sets[k][s];
    if given[k][s].is_none() {
        report.find(Verdict::Missing, format!("{k} {name}: {}", names(fine)), "");
        return;
    }
    let say = |m: u64| {
        let (missing, extra) = (m & fine, m & !fine);
        let is = |m: u64| if m.count_ones() > 1 { "are" } else { "is" };
        let mut parts = vec![];
        if missing != 0 {
            parts.push(format!("{} {} missing", names(missing), is(missing)));
        }
        if extra != 0 {
            parts.push(format!("{} should not be there", names(extra)));
        }
        format!("{k} {name}: {}", parts.join("; "))
    };
    let w = wrong[k][s];
    if w.new != 0 {
        let gives = if s == 0 { right.rules.before(k, own[k][1]) } else { right.rules.after(k, own) };
        let rule = right.rules.words(k, side, own);
        let why = match side {
            Side::Before => format!("rule: {rule}; from after as answered ({}) it gives {}", names(own[k][1]), names(gives)),
            Side::After if right.rules.successors(k).is_empty() => format!("rule: {rule}"),
            Side::After => format!("rule: {rule}; from the sets as answered it gives {}", names(gives)),
        };
        report.find(Verdict::Wrong, say(w.new), why);
    }
    if w.follow != 0 {
        let from = match side {
            Side::Before => format!("after at {k}"),
            Side::After => {
                let carried = right.rules.successors(k).iter().filter(|x| (wrong[**x][0].new | wrong[**x][0].follow) & w.follow != 0);
                format!("before at {}", carried.map(usize::to_string).collect::<Vec<_>>().join(" and "))
            }
        };
        report.find(Verdict::Follows, say(w.follow), format!("as the rule gives it from {from}"));
    }
    if w.least != 0 {
        report.find(Verdict::NotLeast, say(w.least), "obeys the rules, but nothing that comes later needs it: only the loop holds it up");
    }
}

/// A refusal, and what it means.
pub(super) struct Refused {
    pub number: u16,
    pub place: u16,
    pub why: String,
}

/// The marks where the sheet is refused: one line is asked.
pub(super) fn mark_refused(kind: Kind, right: &Refused, lines: &[Line]) -> Report {
    let mut report = Report::new(kind, 1);
    let mut first = None;
    for line in lines {
        let at = format!("line {}", line.number);
        match answer::words(line.text).map(|w| answer::refused(&w)) {
            Ok(Some(Ok(_))) if first.is_some() => report.find(Verdict::Twice, format!("{at}: a second refusal"), ""),
            Ok(Some(Ok(said))) => first = Some(said),
            Ok(Some(Err(why))) | Err(why) => report.find(Verdict::Unread, format!("{at}: {why}"), ""),
            Ok(None) => report.find(Verdict::Extra, format!("{at}: nothing but the refusal is asked"), ""),
        }
    }
    let Refused { number, place, why } = right;
    match first {
        Some((n, p)) if (n, p) == (*number as usize, *place as usize) => report.right = 1,
        Some((n, p)) => {
            report.wrong = 1;
            report.find(Verdict::Wrong, format!("refused {n} {p} should be refused {number} {place}"), why.clone());
        }
        None => {
            report.missing = 1;
            report.find(Verdict::Missing, format!("refused {number} {place}"), why.clone());
        }
    }
    report
}
