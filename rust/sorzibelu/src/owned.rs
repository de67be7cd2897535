//! The same answers as values: each makes what the call lends, and takes the answer out of it.
use crate::{
    calls,
    sheet::{Sheet, BLOCK, LABEL},
    Graph, Lookup, Refusal, BYTES_PER_INSTRUCTION, FLOW_NUMBERS, LIVE_BYTES, MAX_CLASS_SHEETS, MAX_NODES, MAX_SHEET_BYTES, NUMBERS_PER_BLOCK, NUMBERS_PER_SHEET,
};

/// One row of the flow table.
#[derive(Clone, Copy, Debug, PartialEq, Eq, Hash)]
pub struct Block {
    /// The offset of its first instruction.
    pub lower: u16,
    /// The offset of its last instruction.
    pub upper: u16,
    /// Its key, from 2.
    pub key: u16,
    /// The keys that it leads to, two at most, or 1 at an exit; 0 filling up, so that the last is always 0.
    pub next: [u16; 3],
}

impl Block {
    /// The keys that it leads to, without what fills up.
    pub fn leads_to(&self) -> impl Iterator<Item = u16> + '_ {
        self.next.iter().copied().filter(|key| *key != 0)
    }
}

/// The flow table of a sheet: its blocks, by offset.
///
/// ```
/// let m2 = sorzibelu::text::assemble("locals 2 user 2 parameters 2 references\nlabel L1\nbranch L1 L2 on t0\nlabel L2\nret t1\n")?;
/// let blocks = sorzibelu::blocks(&Vec::try_from(&m2)?)?;
/// assert_eq!(blocks.len(), 2);
/// assert_eq!((blocks[0].lower, blocks[0].upper, blocks[0].key), (0, 1, 2));
/// assert_eq!(blocks[0].leads_to().collect::<Vec<_>>(), [2, 3]);
/// # Ok::<(), Box<dyn std::error::Error>>(())
/// ```
pub fn blocks(sheet: &[u8]) -> Result<Vec<Block>, Refusal> {
    let mut table = vec![0; FLOW_NUMBERS];
    let count = calls::flow(sheet, &mut table)? as usize;
    let row = |r: &[u16]| Block { lower: r[0], upper: r[1], key: r[2], next: [r[3], r[4], r[5]] };
    Ok(table.chunks_exact(NUMBERS_PER_BLOCK).take(count).map(row).collect())
}

/// The sets around one instruction, bit i for local i.
#[derive(Clone, Copy, Debug, Default, PartialEq, Eq, Hash)]
pub struct Sets {
    /// What is live before it.
    pub before: u64,
    /// What is live behind it.
    pub after: u64,
}

/// The live sets of a sheet.
#[derive(Clone, Debug, Default, PartialEq, Eq)]
pub struct LiveSets {
    /// Of each instruction, by offset.
    pub sets: Vec<Sets>,
    /// How many blocks the work list gave out.
    pub taken: u32,
}

/// The live sets of a sheet, and the count of blocks taken.
///
/// ```
/// let m1 = sorzibelu::text::assemble("locals 1 user 1 parameters 1 references\nret t0\n")?;
/// let live = sorzibelu::live_sets(&Vec::try_from(&m1)?)?;
/// assert_eq!((live.sets[0].before, live.sets[0].after, live.taken), (1, 0, 3));
/// # Ok::<(), Box<dyn std::error::Error>>(())
/// ```
pub fn live_sets(sheet: &[u8]) -> Result<LiveSets, Refusal> {
    let mut out = vec![0; LIVE_BYTES];
    let taken = calls::live(sheet, &mut out)?;
    Ok(written(sheet, &out, taken))
}

/// The sets that were written for an accepted sheet.
fn written(sheet: &[u8], out: &[u8], taken: u32) -> LiveSets {
    // an accepted sheet has its instruction count in bytes 4 and 5
    let n = u16::from_le_bytes([sheet[4], sheet[5]]) as usize;
    let word = |b: &[u8]| b.iter().rev().fold(0, |w, x| w << 8 | u64::from(*x));
    let sets = out.chunks_exact(BYTES_PER_INSTRUCTION).take(n).map(|s| Sets { before: word(&s[..8]), after: word(&s[8..]) });
    LiveSets { sets: sets.collect(), taken }
}

/// The sheets of a class set: a sheet starts at each block whose number, its bytes 0 and 1, is 0, whatever else is wrong with that block.
///
/// Of any bytes: the parts laid end to end are the bytes again. So blocks in front of the first that is numbered 0 are a part of their own, the first one; a rest that
/// is no whole block belongs to the last part; and no bytes have no part. [`live_class`](crate::live_class) refuses all three.
///
/// ```
/// use sorzibelu::class_sheets;
/// let class = [[0; 1_024], [1; 1_024], [0; 1_024]].concat();
/// let blocks: Vec<usize> = class_sheets(&class).iter().map(|sheet| sheet.len() / 512).collect();
/// assert_eq!(blocks, [1, 3, 1, 1]);
/// assert_eq!(class_sheets(&class[1_024..4 * 512 + 9]).concat(), class[1_024..4 * 512 + 9]);
/// ```
pub fn class_sheets(sheets: &[u8]) -> Vec<&[u8]> {
    let mut all = vec![];
    let mut left = sheets;
    while !left.is_empty() {
        let next = left.chunks_exact(BLOCK).skip(1).position(|block| block[..2] == [0, 0]);
        let (sheet, rest) = left.split_at(next.map_or(left.len(), |blocks| BLOCK * (1 + blocks)));
        all.push(sheet);
        left = rest;
    }
    all
}

/// The live sets of each sheet of a class set, or why that sheet is refused; and where the whole is refused, why. [`class_sheets`] gives the sheets.
///
/// ```
/// use sorzibelu::{class_live_sets, live_sets, Refusal};
/// let m1 = sorzibelu::text::assemble("locals 1 user 1 parameters 1 references\nret t0\n")?;
/// let m1 = Vec::try_from(&m1)?;
/// let answers = class_live_sets(&[&m1[..], &[0; 1_024], &m1].concat())?;
/// assert_eq!(answers, [live_sets(&m1), Err(Refusal::Length), Err(Refusal::Length), live_sets(&m1)]);
/// assert_eq!(class_live_sets(&[0; 17 * 512]), Err(Refusal::TooManySheets));
/// # Ok::<(), Box<dyn std::error::Error>>(())
/// ```
pub fn class_live_sets(sheets: &[u8]) -> Result<Vec<Result<LiveSets, Refusal>>, Refusal> {
    let parts = class_sheets(sheets);
    // more are refused whatever is lent
    let room = parts.len().min(MAX_CLASS_SHEETS);
    let (mut sets, mut answers) = (vec![0; LIVE_BYTES * room], vec![0; NUMBERS_PER_SHEET * room]);
    calls::live_class(sheets, &mut sets, &mut answers)?;
    let lent = sets.chunks_exact(LIVE_BYTES).zip(answers.chunks_exact(NUMBERS_PER_SHEET));
    let answer = |(sheet, (out, numbers)): (&&[u8], (&[u8], &[u32]))| match numbers[0] {
        0 => Ok(written(sheet, out, numbers[2])),
        number => Err(Refusal::of(number as u16, numbers[1] as u16)),
    };
    Ok(parts.iter().zip(lent).map(answer).collect())
}

/// The bytes of the rewritten sheet.
///
/// ```
/// use sorzibelu::{rewritten, sheet::Sheet, text};
/// let m5 = text::assemble("locals 3 user 3 parameters 0 references\nt0 <- load Bool\nt1 <- call Not t0\nt2 <- copy t1\nret t2\n")?;
/// let new = Sheet::try_from(&rewritten(&Vec::try_from(&m5)?)?[..])?;
/// assert_eq!(text::instruction(&new.code[1]), "t2 <- call Not t0");
/// # Ok::<(), Box<dyn std::error::Error>>(())
/// ```
pub fn rewritten(sheet: &[u8]) -> Result<Vec<u8>, Refusal> {
    let mut out = vec![0; MAX_SHEET_BYTES];
    let length = calls::rewrite(sheet, &mut out)?;
    out.truncate(length as usize);
    Ok(out)
}

/// The bytes of the sheet with its locals renumbered.
///
/// ```
/// use sorzibelu::{renumbered, text, Refusal};
/// let hides = text::assemble("locals 1 user 0 parameters 0 references t0\nt0 <- call IsParent #7\nret\n")?;
/// assert_eq!(renumbered(&Vec::try_from(&hides)?), Err(Refusal::HiddenLocal(0)));
/// # Ok::<(), Box<dyn std::error::Error>>(())
/// ```
pub fn renumbered(sheet: &[u8]) -> Result<Vec<u8>, Refusal> {
    // what is longer than any sheet is refused whatever is lent
    let mut out = vec![0; sheet.len().min(MAX_SHEET_BYTES)];
    let length = calls::renumber(sheet, &mut out)?;
    out.truncate(length as usize);
    Ok(out)
}

/// The labels that no Branch, Jump or flagged Call names, by the offsets of their Labels: [`label`](crate::label) asked of each.
///
/// ```
/// let m2 = sorzibelu::text::assemble("locals 1 user 1 parameters 1 references\nlabel L1\nlabel L5\nbranch L1 L2 on t0\nlabel L2\nret\n")?;
/// assert_eq!(sorzibelu::never_named(&Vec::try_from(&m2)?), Ok(vec![5]));
/// # Ok::<(), Box<dyn std::error::Error>>(())
/// ```
pub fn never_named(sheet: &[u8]) -> Result<Vec<u16>, Refusal> {
    let mut all = vec![];
    for r in Sheet::try_from(sheet)?.code.iter().filter(|r| r.kind == LABEL) {
        if let Lookup::Unnamed(_) = calls::label(sheet, r.one.into())? {
            all.push(r.one);
        }
    }
    Ok(all)
}

/// A text that a call writes at the front of so many bytes, which are enough for every one.
fn text(sheet: &[u8], room: usize, call: fn(&[u8], &mut [u8]) -> Result<u32, Refusal>) -> Result<String, Refusal> {
    let mut out = vec![0; room];
    let length = call(sheet, &mut out)?;
    out.truncate(length as usize);
    Ok(out.into_iter().map(char::from).collect())
}

/// The page of a sheet; see [`page`](crate::page) for the stack that it needs.
///
/// ```
/// let m1 = sorzibelu::text::assemble("locals 1 user 1 parameters 1 references\nret t0\n")?;
/// let page = sorzibelu::page_text(&Vec::try_from(&m1)?)?;
/// assert!(page.starts_with("code\nlocals 1 user 1 parameters 1 references\n0: ret t0\n"));
/// # Ok::<(), Box<dyn std::error::Error>>(())
/// ```
pub fn page_text(sheet: &[u8]) -> Result<String, Refusal> {
    calls::check(sheet)?;
    text(sheet, crate::PAGE_BYTES, calls::page)
}

/// The live sets of a sheet as the program livelist prints them.
///
/// ```
/// let m1 = sorzibelu::text::assemble("locals 1 user 1 parameters 1 references\nret t0\n")?;
/// assert_eq!(sorzibelu::livelist_text(&Vec::try_from(&m1)?)?, "0 0000000000000001 0000000000000000\ntaken 3\n");
/// # Ok::<(), Box<dyn std::error::Error>>(())
/// ```
pub fn livelist_text(sheet: &[u8]) -> Result<String, Refusal> {
    calls::check(sheet)?;
    text(sheet, crate::LIVELIST_BYTES, calls::livelist)
}

/// The nodes that die from this graph to the next, in the order of the walk.
///
/// ```
/// use sorzibelu::{dying_nodes, Graph};
/// let chain = [0, 1, 0, 1, 2, 0];
/// let (this, next) = (Graph { nodes: 3, live: 0b100, triples: &chain }, Graph { nodes: 3, live: 0, triples: &chain });
/// assert_eq!(dying_nodes(this, next), Ok(vec![2, 1, 0]));
/// ```
pub fn dying_nodes(graph: Graph, next: Graph) -> Result<Vec<u8>, Refusal> {
    let mut out = vec![0; MAX_NODES];
    let count = calls::dying(graph, next, &mut out)?;
    out.truncate(count as usize);
    Ok(out)
}
