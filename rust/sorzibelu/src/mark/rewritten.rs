//! Marks for rewritten code, line beside line. New labels and attribute ids that count on from an earlier slip are told apart from a new one.
use super::{
    align::{align, Pair},
    answer,
    answer::Line,
    fates::Fates,
    names,
    report::{Report, Verdict},
    Kind,
};
use crate::{
    sheet::*,
    text::{self, digits, quoted},
};
use std::collections::HashMap;

/// So many lines of code are looked at; more can only be too many.
const MOST_LINES: usize = 2_048;

/// The right sheet, by the proved call, and reasons for it.
pub(super) struct Right {
    pub sheet: Sheet,
    pub fates: Fates,
}

enum Said {
    Heading(Sheet),
    Code(Option<usize>, Instruction),
    Refused,
}

fn read(line: &str) -> Result<Said, String> {
    let words: Vec<&str> = line.split_whitespace().take(4).collect();
    if let Some(refused) = answer::refused(&words) {
        return refused.map(|_| Said::Refused);
    }
    if text::starts_heading(words[0]) {
        return text::heading_line(line).map(Said::Heading).map_err(|f| f.what);
    }
    let offset = words[0].strip_suffix(':').and_then(|w| digits(w, "")).and_then(|d| d.parse().ok());
    let code = if offset.is_some() { line[words[0].len()..].trim_start() } else { line };
    if code.is_empty() {
        return Err("no instruction behind the offset".into());
    }
    text::instruction_line(code).map(|r| Said::Code(offset, r)).map_err(|f| f.what)
}

/// What an answer has: a heading perhaps, and code with the line of each instruction.
#[derive(Default)]
struct Given {
    heading: Option<Sheet>,
    code: Vec<(Option<usize>, usize, Instruction)>,
}

/// The marks of an answer, as text, to a sheet whose rewriting is accepted.
pub(super) fn mark(right: &Right, lines: &[Line]) -> Report {
    let mut report = Report::new(Kind::Rewritten, right.sheet.code.len());
    let mut given = Given::default();
    for line in lines {
        let at = format!("line {}", line.number);
        match read(line.text) {
            Err(why) => report.find(Verdict::Unread, format!("{at}: {why}"), ""),
            Ok(Said::Refused) => report.find(Verdict::Extra, format!("{at}: the rewriting is not refused"), ""),
            Ok(Said::Heading(_)) if given.heading.is_some() => report.find(Verdict::Twice, format!("{at}: a second heading"), ""),
            Ok(Said::Heading(h)) => given.heading = Some(h),
            Ok(Said::Code(..)) if given.code.len() == MOST_LINES => {
                report.find(Verdict::Extra, format!("{at}: {} is behind {MOST_LINES} instructions", quoted(line.text)), "");
            }
            Ok(Said::Code(offset, r)) => given.code.push((offset, line.number, r)),
        }
    }
    // numbered lines may stand in any order
    if given.code.iter().all(|(offset, ..)| offset.is_some()) {
        given.code.sort_by_key(|(offset, line, _)| (*offset, *line));
        let mut kept: Vec<(Option<usize>, usize, Instruction)> = vec![];
        for x in given.code {
            match kept.last().filter(|last| last.0 == x.0) {
                Some(last) => {
                    let what = format!("line {}: {} was answered in line {}, which counts", x.1, x.0.unwrap_or(0), last.1);
                    report.find(Verdict::Twice, what, "");
                }
                None => kept.push(x),
            }
        }
        given.code = kept;
    }
    let lines: Vec<String> = given.code.iter().map(|(_, line, _)| format!("line {line}")).collect();
    let code: Vec<Instruction> = given.code.into_iter().map(|(.., r)| r).collect();
    judge(right, given.heading.as_ref(), &code, &lines, &mut report);
    report
}

/// The marks of an answer that is a sheet in bytes.
pub(super) fn mark_bytes(right: &Right, given: &Sheet) -> Report {
    let mut report = Report::new(Kind::Rewritten, right.sheet.code.len());
    let lines: Vec<String> = (0..given.code.len()).map(|k| format!("offset {k}")).collect();
    judge(right, Some(given), &given.code, &lines, &mut report);
    report
}

fn judge(right: &Right, heading: Option<&Sheet>, code: &[Instruction], lines: &[String], report: &mut Report) {
    let Right { sheet: right, fates } = right;
    if let Some(h) = heading {
        for (name, given, wanted) in [("locals", h.locals, right.locals), ("user", h.user_locals, right.user_locals), ("parameters", h.parameters, right.parameters)] {
            if given != wanted {
                report.find_unasked(format!("heading, {name}: {given} should be {wanted}"), "the heading stays as it was");
            }
        }
        if h.references != right.references {
            let what = format!("heading, references: {} should be {}", names(h.references), names(right.references));
            report.find_unasked(what, "the heading stays as it was");
        }
    }
    // the answer's own number for each right label that differs
    let mut labels: HashMap<u16, u16> = HashMap::new();
    let mut before: Option<(u16, u16)> = None;
    for pair in align(&right.code, code) {
        match pair {
            Pair::Missing(i) => {
                report.missing += 1;
                report.find(Verdict::Missing, format!("{i}: {}", text::instruction(&right.code[i])), fates.of(i));
            }
            Pair::Extra(j) => {
                report.find(Verdict::Extra, format!("{}: '{}' should not be there", lines[j], text::instruction(&code[j])), fates.of_extra(&code[j]));
            }
            Pair::Both(i, j) => {
                let (r, g) = (&right.code[i], &code[j]);
                if r == g {
                    report.right += 1;
                } else {
                    report.wrong += 1;
                    let what = format!("{i}: '{}' should be '{}'", text::instruction(g), text::instruction(r));
                    match follows(r, g, &labels, before) {
                        Some(why) => {
                            report.follows += 1;
                            report.find(Verdict::Follows, what, why);
                        }
                        None => {
                            let why = [differences(r, g), fates.of(i).into()];
                            report.find(Verdict::Wrong, what, why.into_iter().filter(|w| !w.is_empty()).collect::<Vec<_>>().join(". "));
                        }
                    }
                    [(r.one, g.one), (r.two, g.two)].iter().filter(|(a, b)| a != b).for_each(|(a, b)| {
                        labels.entry(*a).or_insert(*b);
                    });
                }
                before = Some((r.attr, g.attr));
            }
        }
    }
}

/// Why an instruction is as it is by an earlier slip, where it is: its labels are those of an earlier line, its attribute id counts on.
fn follows(r: &Instruction, g: &Instruction, labels: &HashMap<u16, u16>, before: Option<(u16, u16)>) -> Option<String> {
    let own = |l: u16| labels.get(&l).copied().unwrap_or(l);
    let counts_on = r.attr != g.attr && before.is_some_and(|(right, given)| g.attr.wrapping_sub(given) == r.attr.wrapping_sub(right) && given != right);
    let attr = if counts_on { g.attr } else { r.attr };
    let mine = Instruction { one: own(r.one), two: own(r.two), attr, ..r.clone() };
    (mine == *g).then(|| match (mine.one, mine.two) == (r.one, r.two) {
        true => "the attribute id counts on from the line before".into(),
        false if counts_on => "by the labels of an earlier line, and the attribute id counts on".into(),
        false => "by the labels of an earlier line".into(),
    })
}

/// Which fields differ.
fn differences(r: &Instruction, g: &Instruction) -> String {
    let list = |xs: &[u8]| if xs.is_empty() { "-".into() } else { xs.iter().map(|x| format!("t{x}")).collect::<Vec<_>>().join(" ") };
    let label = |i: &Instruction| match i.kind {
        BRANCH => format!("L{} L{}", i.one, i.two),
        JUMP | LABEL => format!("L{}", i.one),
        _ => i.abort.map_or("-".into(), |a| format!("L{} into t{a}", i.one)),
    };
    let fields = [
        ("destinations", list(&g.dsts), list(&r.dsts)),
        ("sources", list(&g.srcs), list(&r.srcs)),
        ("labels", label(g), label(r)),
        ("payload", format!("#{}", g.payload), format!("#{}", r.payload)),
        ("attribute id", format!("@{}", g.attr), format!("@{}", r.attr)),
    ];
    let told = fields.iter().filter(|(_, a, b)| a != b).map(|(name, a, b)| format!("{name}: {a} should be {b}"));
    told.collect::<Vec<_>>().join("; ")
}
