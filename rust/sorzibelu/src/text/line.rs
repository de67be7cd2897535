//! One line that is an instruction: its form by its word, its fields in any order.
use super::{names::*, words::*, Fault};
use crate::sheet::*;

/// What an instruction's word asks for.
struct Form {
    kind: u8,
    /// How many destinations, sources and labels.
    dsts: [usize; 2],
    srcs: [usize; 2],
    labels: usize,
    payload: bool,
}

/// The form of a word, and the sub.
fn form(word: &str, w: &mut Words) -> Result<(Form, u8), Fault> {
    let form = |kind, dsts, srcs, labels, payload| Form { kind, dsts, srcs, labels, payload };
    Ok(match word {
        "copy" | "move" | "store" => (form(ASSIGN, [1, 1], [1, 1], 0, false), ASSIGNS.iter().position(|a| *a == word).unwrap_or(0) as u8),
        "call" => (form(CALL, [0, 8], [0, 8], 0, true), w.one_of(&OPERATIONS, "an operation")?),
        "ret" => (form(RET, [0, 0], [0, 8], 0, false), 0),
        "load" => (form(LOAD, [1, 1], [0, 0], 0, true), w.one_of(&CONSTANTS, "a constant's type")?),
        "branch" => (form(BRANCH, [0, 0], [1, 1], 2, false), 0),
        "jump" => (form(JUMP, [0, 0], [0, 0], 1, false), 0),
        "label" => (form(LABEL, [0, 0], [0, 0], 1, false), 0),
        "abort" => (form(ABORT, [0, 0], [1, 1], 0, false), 0),
        "nop" => (form(NOP, [0, 0], [0, 0], 0, false), 0),
        "savemem" => (form(SAVE_MEM, [0, 0], [0, 0], 0, true), 0),
        "savespecvar" => (form(SAVE_SPEC_VAR, [0, 0], [0, 0], 0, true), 0),
        "prop" => (form(PROP, [0, 0], [0, 8], 0, true), w.one_of(&PROPS, "Assert, Assume or Modifies")?),
        _ => {
            if word.starts_with(['#', ';', '%']) {
                return w.fault(format!("{} is no instruction: a comment starts with //", quoted(word)));
            }
            let call = OPERATIONS.iter().find(|o| o.eq_ignore_ascii_case(word)).map(|o| format!(": did you mean call {o}?"));
            return w.fault(format!("{} is no instruction{}", quoted(word), call.unwrap_or_else(|| hint(word, WORDS))));
        }
    })
}

/// The instruction of a line, from its first word on.
pub(crate) fn instruction(w: &mut Words) -> Result<Instruction, Fault> {
    let dsts = w.locals(8)?;
    if !dsts.is_empty() {
        w.word("<-")?;
    }
    let word = w.take("an instruction")?;
    let (form, sub) = form(word, w)?;
    let mut r = Instruction { kind: form.kind, sub, ..Default::default() };
    if !(form.dsts[0]..=form.dsts[1]).contains(&dsts.len()) {
        return w.fault(format!("'{word}' has {} destinations", if dsts.is_empty() { "no".into() } else { dsts.len().to_string() }));
    }
    r.dsts = dsts;
    let mut labels = vec![];
    let (mut on, mut flag, mut local, mut payload, mut attr) = (false, None, None, None, None);
    while let Some(next) = w.peek() {
        match next {
            "on" if form.kind == BRANCH && !on => {
                on = true;
                w.word("on")?;
                r.srcs.push(w.local()?);
            }
            "abort" if form.kind == CALL && flag.is_none() => {
                w.word("abort")?;
                flag = Some(w.label()?);
                if local.is_none() {
                    w.word("into")?;
                    local = Some(w.local()?);
                }
            }
            "into" if form.kind == CALL && local.is_none() => {
                w.word("into")?;
                local = Some(w.local()?);
            }
            _ if next.starts_with('#') => {
                if !form.payload {
                    return w.fault(format!("'{word}' has no payload"));
                }
                once(w, &mut payload, "#", "a payload such as #5")?;
            }
            _ if next.starts_with('@') => once(w, &mut attr, "@", "an attribute id such as @7")?,
            _ if digits(next, "t").is_some() && form.srcs[1] > 0 && form.kind != BRANCH => {
                r.srcs.extend(w.locals(8)?);
                if r.srcs.len() > form.srcs[1] {
                    return w.fault(format!("{} locals where at most {} can stand", r.srcs.len(), form.srcs[1]));
                }
            }
            _ if labels.len() < form.labels => labels.push(w.label()?),
            _ if form.kind == BRANCH && !on => w.word("on")?,
            _ if r.srcs.len() < form.srcs[0] => r.srcs.push(w.local()?),
            _ => w.end("the instruction")?,
        }
    }
    if labels.len() < form.labels {
        w.label()?;
    }
    if form.kind == BRANCH && !on {
        w.word("on")?;
    }
    if r.srcs.len() < form.srcs[0] {
        w.local()?;
    }
    match (flag, local) {
        (Some(label), Some(local)) => (r.one, r.abort) = (label, Some(local)),
        (Some(_), None) => w.word("into")?,
        (None, Some(_)) => w.word("abort")?,
        (None, None) => {}
    }
    if let Some(one) = labels.first() {
        r.one = *one;
    }
    r.two = labels.get(1).copied().unwrap_or(0);
    r.payload = payload.unwrap_or(0);
    r.attr = attr.unwrap_or(0);
    Ok(r)
}

/// A field that stands once at most.
fn once<N: TryFrom<u64>>(w: &mut Words, field: &mut Option<N>, prefix: &str, wanted: &str) -> Result<(), Fault> {
    let shown = w.peek().map(quoted).unwrap_or_default();
    let new = w.number(prefix, wanted)?;
    match field.replace(new) {
        None => Ok(()),
        Some(_) => w.fault(format!("{shown}: a second one of this sort")),
    }
}
