//! A whole text: its heading, its instructions, its raw lines, and the bytes that they write down.
use super::{line, raw, words::*, Fault, Faults};
use crate::{sheet::*, Refusal};
use std::collections::BTreeMap;

/// The longest sheet that a text can ask for; the checks refuse far shorter ones.
const MOST_BYTES: usize = 1 << 26;

const HEADING: [&str; 6] = ["locals", "user", "parameters", "references", "count", "bytes"];

/// The heading's fields, the raw ones left out where the text does not name them.
#[derive(Default)]
struct Heading {
    locals: u16,
    user: u16,
    parameters: u16,
    references: u64,
    count: Option<u16>,
    bytes: Option<usize>,
}

fn heading(w: &mut Words) -> Result<Heading, Fault> {
    let mut h = Heading::default();
    let mut seen: Vec<&str> = vec![];
    while let Some(field) = w.next() {
        if seen.contains(&field) {
            return w.fault(format!("'{field}' stands twice in the heading"));
        }
        seen.push(field);
        match field {
            "locals" => h.locals = w.number("", "the number of locals")?,
            "user" => h.user = w.number("", "the number of user locals")?,
            "parameters" => h.parameters = w.number("", "the number of parameters")?,
            "references" => {
                for i in w.locals(256)? {
                    if i > 63 {
                        return w.fault(format!("t{i} can be no reference: there are 64 locals at most"));
                    }
                    h.references |= 1 << i;
                }
            }
            "count" => h.count = Some(w.number("", "the heading's instruction count")?),
            "bytes" => match w.number::<usize>("", "the sheet's length in bytes")? {
                n if n <= MOST_BYTES => h.bytes = Some(n),
                n => return w.fault(format!("{n} bytes are more than a text can ask for")),
            },
            _ if seen.len() > 4 => return w.fault(format!("{} stands behind the end of the heading", quoted(field))),
            _ => return w.fault(format!("{} is no field of the heading{}", quoted(field), hint(field, HEADING))),
        }
    }
    match HEADING[..4].iter().find(|f| !seen.contains(f)) {
        Some(f) => w.fault(format!("the heading has no '{f}'")),
        None => Ok(h),
    }
}

/// Whether a line with this first word is a heading.
pub(crate) fn starts_heading(word: &str) -> bool {
    HEADING.contains(&word)
}

/// One line that is a heading: a sheet without code.
pub(crate) fn heading_line(line: &str) -> Result<Sheet, Fault> {
    let Some(mut w) = lines(line).next() else {
        return Err(Fault { line: 1, what: "no heading".into() });
    };
    let h = heading(&mut w)?;
    Ok(Sheet { locals: h.locals, user_locals: h.user, parameters: h.parameters, references: h.references, code: vec![] })
}

/// One line that is an instruction, without an offset.
pub(crate) fn instruction_line(line: &str) -> Result<Instruction, Fault> {
    match lines(line).next() {
        Some(mut w) => line::instruction(&mut w),
        None => Err(Fault { line: 1, what: "no instruction".into() }),
    }
}

/// What a text writes down, before any check.
///
/// ```
/// use sorzibelu::{check, text};
/// let written = text::read("locals 1 user 1 parameters 1 references\nraw kind 12 sources 1 t0\n").unwrap();
/// let refusal = check(&written.bytes).unwrap_err();
/// assert_eq!(written.fault(refusal).line, 2);
/// ```
#[derive(Clone, Debug, PartialEq, Eq)]
pub struct Written {
    /// The sheet.
    pub bytes: Vec<u8>,
    /// The line of the heading.
    heading: usize,
    /// The line of each instruction.
    code: Vec<usize>,
    /// The first line of each block that is named.
    blocks: BTreeMap<usize, usize>,
}

impl Written {
    /// Where in the text a refusal of its sheet belongs: the line of the offset or of the block that it names, else the heading's.
    pub fn fault(&self, refusal: Refusal) -> Fault {
        let place = refusal.place() as usize;
        let line = match refusal.number() {
            2 => self.blocks.get(&place),
            4..=8 | 15 | 18 => self.code.get(place),
            _ => None,
        };
        Fault { line: line.copied().unwrap_or(self.heading), what: format!("refused {} {}: {}", refusal.number(), refusal.place(), why(&self.bytes, refusal)) }
    }
}

/// One instruction of a text.
enum Line {
    Plain(Instruction),
    Raw([u8; RECORD]),
}

/// The parts of a text, and its faults.
#[derive(Default)]
struct Parts {
    heading: Option<(usize, Heading)>,
    code: Vec<(usize, Line)>,
    blocks: BTreeMap<usize, raw::Block>,
    faults: Faults,
    /// How much higher the offsets are that stand in front of the instructions: a wrong one is told once.
    ahead: usize,
}

impl Parts {
    fn of(text: &str) -> Parts {
        let mut p = Parts::default();
        for mut w in lines(text) {
            let number = w.line;
            let first = w.peek().unwrap_or_default();
            if p.heading.is_none() {
                if !HEADING.contains(&first) {
                    let hint = if first.starts_with(['#', ';', '%']) { ": a comment starts with //" } else { "" };
                    let what = format!("no heading: {} where 'locals N user N parameters N references ..' should stand{hint}", quoted(first));
                    p.faults.add(Fault { line: number, what });
                    return p;
                }
                let h = heading(&mut w);
                p.heading = Some((number, h.unwrap_or_else(|f| {
                    p.faults.add(f);
                    Heading::default()
                })));
                continue;
            }
            let done = match first {
                "block" => raw::block(&mut w, &mut p.blocks),
                _ => p.instruction(&mut w),
            };
            if let Err(f) = done {
                p.faults.add(f);
            }
        }
        p
    }

    fn instruction(&mut self, w: &mut Words) -> Result<(), Fault> {
        let at = self.code.len();
        let told = self.offset(w, at);
        // a faulty line is an instruction too: the offsets behind it count on
        let read = match w.peek() {
            Some("raw") => raw::record(w).map(Line::Raw),
            _ => line::instruction(w).map(Line::Plain),
        };
        match read {
            Ok(l) => {
                self.code.push((w.line, l));
                told
            }
            Err(f) => {
                self.code.push((w.line, Line::Raw([0; RECORD])));
                told.and(Err(f))
            }
        }
    }

    /// An offset such as `3:` where one stands, which must be this one.
    fn offset(&mut self, w: &mut Words, wanted: usize) -> Result<(), Fault> {
        let Some((word, number)) = w.peek().and_then(|x| Some((x, digits(x.strip_suffix(':')?, "")?))) else {
            return Ok(());
        };
        w.next();
        let given = number.parse().unwrap_or(usize::MAX);
        if given == wanted.wrapping_add(self.ahead) {
            return Ok(());
        }
        self.ahead = given.wrapping_sub(wanted);
        w.fault(format!("{} stands before the instruction of offset {wanted}", quoted(word)))
    }

    /// The line of the text's end, for what is missing.
    fn end(text: &str) -> usize {
        text.lines().count().max(1)
    }
}

/// The sheet that a text writes down, for a text without raw lines. The checks still decide whether it is accepted.
///
/// ```
/// let sheet = sorzibelu::text::assemble("locals 1 user 1 parameters 1 references\nret t0\n").unwrap();
/// assert!(sorzibelu::check(&Vec::try_from(&sheet).unwrap()).is_ok());
/// ```
pub fn assemble(text: &str) -> Result<Sheet, Faults> {
    let mut p = Parts::of(text);
    let (at, h) = p.heading.take().unwrap_or_default();
    if p.faults.first.is_empty() && at == 0 {
        p.faults.add(Fault { line: Parts::end(text), what: "no heading: the first line is 'locals N user N parameters N references ..'".into() });
    } else if p.faults.first.is_empty() && p.code.is_empty() {
        p.faults.add(Fault { line: Parts::end(text), what: "no instruction".into() });
    }
    if h.count.is_some() || h.bytes.is_some() {
        p.faults.add(Fault { line: at, what: "'count' and 'bytes' stand only in a text that is assembled unchecked".into() });
    }
    if let Some(b) = p.blocks.values().next() {
        p.faults.add(Fault { line: b.line, what: "'block' stands only in a text that is assembled unchecked".into() });
    }
    if let Some((line, _)) = p.code.get(1_024) {
        p.faults.add(Fault { line: *line, what: "more than 1,024 instructions".into() });
    }
    let mut code = vec![];
    for (line, l) in p.code {
        match l {
            Line::Plain(r) => code.push(r),
            Line::Raw(_) if p.faults.first.is_empty() => p.faults.add(Fault { line, what: "'raw' stands only in a text that is assembled unchecked".into() }),
            Line::Raw(_) => {}
        }
    }
    p.faults.or(Sheet { locals: h.locals, user_locals: h.user, parameters: h.parameters, references: h.references, code })
}

/// The bytes that a text writes down, raw lines and all, whether or not the checks would accept them.
///
/// ```
/// use sorzibelu::{check, text};
/// let seven = text::read("locals 0 user 0 parameters 0 references\njump L1\n").unwrap();
/// assert_eq!(check(&seven.bytes).unwrap_err().number(), 7);
/// let two = text::read("locals 0 user 0 parameters 0 references\nblock 1 check 5\nret\n").unwrap();
/// assert_eq!(check(&two.bytes).unwrap_err().number(), 2);
/// ```
pub fn read(text: &str) -> Result<Written, Faults> {
    let mut p = Parts::of(text);
    let lines = p.code.len();
    let (at, h) = p.heading.take().unwrap_or_default();
    if p.faults.first.is_empty() && at == 0 {
        p.faults.add(Fault { line: Parts::end(text), what: "no heading: the first line is 'locals N user N parameters N references ..'".into() });
    }
    let length = h.bytes.unwrap_or(BLOCK * (1 + lines.div_ceil(PER_BLOCK)));
    if length > MOST_BYTES || h.count.is_none() && lines > u16::MAX as usize {
        p.faults.add(Fault { line: at, what: format!("{lines} instructions are more than a heading can count") });
    } else if lines == 0 && h.count.is_none() && h.bytes.is_none() && p.faults.first.is_empty() {
        p.faults.add(Fault { line: Parts::end(text), what: "no instruction".into() });
    }
    if let Some((b, block)) = p.blocks.iter().find(|(b, _)| **b >= length.div_ceil(BLOCK)) {
        p.faults.add(Fault { line: block.line, what: format!("block {b} is past the end of {length} bytes") });
    }
    p.faults.or(())?;
    let mut s = vec![0; length.next_multiple_of(BLOCK)];
    let mut put = |at: usize, bytes: &[u8]| {
        if let Some(place) = s.get_mut(at..at + bytes.len()) {
            place.copy_from_slice(bytes);
        }
    };
    put(4, &h.count.unwrap_or(lines as u16).to_le_bytes());
    put(6, &h.locals.to_le_bytes());
    put(8, &h.user.to_le_bytes());
    put(10, &h.parameters.to_le_bytes());
    put(16, &h.references.to_le_bytes());
    for (k, (_, l)) in p.code.iter().enumerate() {
        match l {
            // the lists of a line have 8 places at most
            Line::Plain(r) => put(record_start(k), &<[u8; RECORD]>::try_from(r).unwrap_or_default()),
            Line::Raw(r) => put(record_start(k), r),
        }
    }
    for (b, block) in &p.blocks {
        block.bytes.iter().for_each(|(at, x)| put(b * BLOCK + at, &[*x]));
    }
    for (b, part) in s.chunks_mut(BLOCK).enumerate() {
        let block = p.blocks.get(&b);
        part[..2].copy_from_slice(&block.and_then(|x| x.number).unwrap_or(b as u16).to_le_bytes());
        let sum: usize = part[..2].iter().chain(&part[4..]).map(|x| *x as usize).sum();
        part[2..4].copy_from_slice(&block.and_then(|x| x.check).unwrap_or(sum as u16).to_le_bytes());
    }
    s.truncate(length);
    Ok(Written {
        bytes: s,
        heading: at,
        code: p.code.iter().map(|(line, _)| *line).collect(),
        blocks: p.blocks.iter().map(|(b, block)| (*b, block.line)).collect(),
    })
}

/// The text of any bytes, the checks' opinion aside: instructions where records are such, raw lines for all else. `read` gives the bytes again.
///
/// ```
/// use sorzibelu::text;
/// let text = "locals 1 user 1 parameters 1 references\nraw kind 12 sources 1 t0\n";
/// assert_eq!(text::list_raw(&text::read(text).unwrap().bytes), text);
/// assert_eq!(text::read(&text::list_raw(b"any bytes")).unwrap().bytes, b"any bytes");
/// ```
pub fn list_raw(bytes: &[u8]) -> String {
    let mut s = bytes.to_vec();
    s.resize(bytes.len().next_multiple_of(BLOCK).max(BLOCK), 0);
    let u16_at = |at: usize| u16::from_le_bytes([s[at], s[at + 1]]);
    let count = u16_at(4);
    let room = (s.len() / BLOCK - 1) * PER_BLOCK;
    let record = |k: usize| s[record_start(k)..].first_chunk::<RECORD>().unwrap_or(&[0; RECORD]);
    let last = (0..room).rev().find(|k| record(*k).iter().any(|x| *x != 0)).map_or(0, |k| k + 1);
    let lines = last.max(room.min(count as usize));
    let references = u64::from_le_bytes([s[16], s[17], s[18], s[19], s[20], s[21], s[22], s[23]]);
    let mut text = super::list::heading(u16_at(6), u16_at(8), u16_at(10), references);
    if lines != count as usize || lines == 0 {
        text.push_str(&format!(" count {count}"));
    }
    if bytes.len() != BLOCK * (1 + lines.div_ceil(PER_BLOCK)) {
        text.push_str(&format!(" bytes {}", bytes.len()));
    }
    text.push('\n');
    text.push_str(&raw::block_lines(bytes));
    (0..lines).for_each(|k| {
        text.push_str(&raw::listed(record(k)));
        text.push('\n');
    });
    text
}
