//! The calls over lent slices: thin and safe over the C entry points, with no allocation.
use crate::{ffi, Refusal};

/// number * 2^32 + value, the number 0 where accepted.
fn unpack(packed: u64) -> Result<u32, Refusal> {
    match (packed >> 32) as u16 {
        0 => Ok(packed as u32),
        number => Err(Refusal::of(number, packed as u16)),
    }
}

/// A call that takes a sheet and lends output.
fn lent<T>(sheet: &[u8], out: &mut [T], call: unsafe extern "C" fn(*const u8, usize, *mut T, usize) -> u64) -> Result<u32, Refusal> {
    // SAFETY: the call reads `sheet` and reads and writes `out`, within their lengths; they are apart, since one of them is borrowed alone.
    unpack(unsafe { call(sheet.as_ptr(), sheet.len(), out.as_mut_ptr(), out.len()) })
}

/// Checks 1 to 4, then 18, then 5 to 8 of a sheet, each over the whole of it before the next.
///
/// ```
/// use sorzibelu::{check, Refusal};
/// let m1 = sorzibelu::text::assemble("locals 1 user 1 parameters 1 references\nret t0\n")?;
/// assert_eq!(check(&Vec::try_from(&m1)?), Ok(()));
/// assert_eq!(check(&[]), Err(Refusal::Length));
/// # Ok::<(), Box<dyn std::error::Error>>(())
/// ```
pub fn check(sheet: &[u8]) -> Result<(), Refusal> {
    // SAFETY: the call reads `len` bytes from the pointer, and nothing else.
    unpack(unsafe { ffi::sorzibelu_check(sheet.as_ptr(), sheet.len()) }).map(|_| ())
}

/// The flow table: how many blocks, and six numbers for each at the front of `table`: lower, upper, key, up to two successor keys or 1 at an exit, 0 filling up, so that
/// the sixth is always 0.
/// [`FLOW_NUMBERS`](crate::FLOW_NUMBERS) are always enough.
///
/// ```
/// let m1 = sorzibelu::text::assemble("locals 1 user 1 parameters 1 references\nret t0\n")?;
/// let mut table = [7; sorzibelu::FLOW_NUMBERS];
/// assert_eq!(sorzibelu::flow(&Vec::try_from(&m1)?, &mut table), Ok(1));
/// assert_eq!(table[..7], [0, 0, 2, 1, 0, 0, 7]);
/// # Ok::<(), Box<dyn std::error::Error>>(())
/// ```
pub fn flow(sheet: &[u8], table: &mut [u16]) -> Result<u32, Refusal> {
    lent(sheet, table, ffi::sorzibelu_flow)
}

/// The live sets: how many blocks were taken, and 8 bytes of before and 8 of after for each instruction at the front of `sets`.
/// [`LIVE_BYTES`](crate::LIVE_BYTES) are always enough.
///
/// ```
/// let m1 = sorzibelu::text::assemble("locals 1 user 1 parameters 1 references\nret t0\n")?;
/// let mut sets = [0; sorzibelu::LIVE_BYTES];
/// assert_eq!(sorzibelu::live(&Vec::try_from(&m1)?, &mut sets), Ok(3));
/// assert_eq!(sets[..16], [1, 0, 0, 0, 0, 0, 0, 0, 0, 0, 0, 0, 0, 0, 0, 0]);
/// # Ok::<(), Box<dyn std::error::Error>>(())
/// ```
pub fn live(sheet: &[u8], sets: &mut [u8]) -> Result<u32, Refusal> {
    lent(sheet, sets, ffi::sorzibelu_live)
}

/// The live sets of a class set: sheets laid end to end, each from a block whose number, its bytes 0 and 1, is 0 up to the next such block or the end; how many
/// sheets. Sheet k, from 0, is answered as [`live`] answers it alone: its sets at the front of the [`LIVE_BYTES`](crate::LIVE_BYTES) from `LIVE_BYTES * k` on, and
/// in the [`NUMBERS_PER_SHEET`](crate::NUMBERS_PER_SHEET) numbers from `NUMBERS_PER_SHEET * k` on its number and place, both 0 where it is accepted, and how many
/// blocks were taken, 0 where it is refused. A refused sheet stops no other, and its bytes stay as they were.
///
/// The whole is refused where it is empty or no multiple of 512 bytes ([`Length`](Refusal::Length)), then [`FirstBlock`](Refusal::FirstBlock), then
/// [`TooManySheets`](Refusal::TooManySheets), then [`ShortOutput`](Refusal::ShortOutput), where bytes or numbers are missing for a sheet, be it refused or not.
///
/// ```
/// use sorzibelu::{live_class, Refusal, LIVE_BYTES};
/// let m1 = sorzibelu::text::assemble("locals 1 user 1 parameters 1 references\nret t0\n")?;
/// let m1 = Vec::try_from(&m1)?;
/// // M1, a block alone, which is no sheet, and M1 again
/// let class = [&m1[..], &[0; 512], &m1].concat();
/// let (mut sets, mut answers) = (vec![7; 3 * LIVE_BYTES], [7; 3 * 3]);
/// assert_eq!(live_class(&class, &mut sets, &mut answers), Ok(3));
/// assert_eq!(answers, [0, 0, 3, 1, 0, 0, 0, 0, 3]);
/// let m1_sets = [1, 0, 0, 0, 0, 0, 0, 0, 0, 0, 0, 0, 0, 0, 0, 0, 7];
/// assert_eq!([0, 2].map(|k| sets[LIVE_BYTES * k..][..17] == m1_sets), [true; 2]);
/// assert!(sets[LIVE_BYTES..2 * LIVE_BYTES].iter().all(|x| *x == 7));
/// assert_eq!(live_class(&class, &mut sets[1..], &mut answers), Err(Refusal::ShortOutput));
/// assert_eq!(live_class(&m1[512..], &mut sets, &mut answers), Err(Refusal::FirstBlock));
/// # Ok::<(), Box<dyn std::error::Error>>(())
/// ```
pub fn live_class(sheets: &[u8], sets: &mut [u8], answers: &mut [u32]) -> Result<u32, Refusal> {
    // SAFETY: the call reads `sheets` and reads and writes `sets` and `answers`, within their lengths; they are apart, since two of them are borrowed alone.
    unpack(unsafe { ffi::sorzibelu_live_class(sheets.as_ptr(), sheets.len(), sets.as_mut_ptr(), sets.len(), answers.as_mut_ptr(), answers.len()) })
}

/// The rewritten sheet: how many bytes it has, and they at the front of `out`, which is lent [`MAX_SHEET_BYTES`](crate::MAX_SHEET_BYTES) or more.
///
/// ```
/// use sorzibelu::{rewrite, Refusal, MAX_SHEET_BYTES};
/// let m4 = sorzibelu::text::assemble("locals 2 user 2 parameters 0 references\nt1 <- copy t0\nret\n")?;
/// let m4 = Vec::try_from(&m4)?;
/// let mut out = [0; MAX_SHEET_BYTES];
/// assert_eq!(rewrite(&m4, &mut out), Ok(1_024));
/// assert_eq!(out[4], 1, "the Ret is left");
/// assert_eq!(rewrite(&m4, &mut out[1..]), Err(Refusal::ShortOutput));
/// # Ok::<(), Box<dyn std::error::Error>>(())
/// ```
pub fn rewrite(sheet: &[u8], out: &mut [u8]) -> Result<u32, Refusal> {
    lent(sheet, out, ffi::sorzibelu_rewrite)
}

/// The sheet with its locals renumbered: how many bytes it has, as many as before, and they at the front of `out`, which is lent as many or more. User locals
/// keep their numbers, the others are numbered on in the order of their first mention, and those that nothing mentions are gone.
///
/// ```
/// use sorzibelu::{renumber, sheet::Sheet, text, Refusal};
/// let spare = text::assemble("locals 4 user 1 parameters 0 references t3\nt3 <- call BorrowLoc t0\nret t3\n")?;
/// let spare = Vec::try_from(&spare)?;
/// let mut out = [0; 1_024];
/// assert_eq!(renumber(&spare, &mut out), Ok(1_024));
/// assert_eq!(text::list(&Sheet::try_from(&out[..])?), "locals 2 user 1 parameters 0 references t1\nt1 <- call BorrowLoc t0\nret t1\n");
/// assert_eq!(renumber(&spare, &mut out[1..]), Err(Refusal::ShortOutput));
/// # Ok::<(), Box<dyn std::error::Error>>(())
/// ```
pub fn renumber(sheet: &[u8], out: &mut [u8]) -> Result<u32, Refusal> {
    lent(sheet, out, ffi::sorzibelu_renumber)
}

/// What a label number is in a sheet.
#[derive(Clone, Copy, Debug, PartialEq, Eq, Hash)]
pub enum Lookup {
    /// A Label has it, at this offset, and a Branch, a Jump or a flagged Call names it, reached or not.
    Named(u16),
    /// A Label has it, at this offset, and nothing names it: it starts no block by itself.
    Unnamed(u16),
    /// No Label has it, as none has a number above 65,535.
    Undefined,
}

/// The lookup of a label: of any number, in a sheet that [`check`] accepts.
///
/// ```
/// use sorzibelu::{label, Lookup, Refusal};
/// let m2 = sorzibelu::text::assemble("locals 1 user 1 parameters 1 references\nlabel L1\nlabel L5\nbranch L1 L2 on t0\nlabel L2\nret\n")?;
/// let m2 = Vec::try_from(&m2)?;
/// assert_eq!(label(&m2, 1), Ok(Lookup::Named(0)));
/// assert_eq!(label(&m2, 5), Ok(Lookup::Unnamed(1)));
/// assert_eq!(label(&m2, 65_536 + 1), Ok(Lookup::Undefined));
/// assert_eq!(label(&[], 1), Err(Refusal::Length));
/// # Ok::<(), Box<dyn std::error::Error>>(())
/// ```
pub fn label(sheet: &[u8], label: u32) -> Result<Lookup, Refusal> {
    // SAFETY: the call reads `len` bytes from the pointer, and nothing else.
    let value = unpack(unsafe { ffi::sorzibelu_label(sheet.as_ptr(), sheet.len(), label) })?;
    Ok(match value >> 16 {
        1 => Lookup::Named(value as u16),
        2 => Lookup::Unnamed(value as u16),
        _ => Lookup::Undefined,
    })
}

/// The page of any bytes: how long it is, and it at the front of `out`, which is lent [`PAGE_BYTES`](crate::PAGE_BYTES) or more. A refused
/// sheet's page is the line `refused NUMBER PLACE`; only [`ShortOutput`](Refusal::ShortOutput) is an error. The call needs
/// [`PAGE_STACK_BYTES`](crate::PAGE_STACK_BYTES) of stack.
///
/// ```
/// let mut out = vec![0; sorzibelu::PAGE_BYTES];
/// assert_eq!(sorzibelu::page(&[], &mut out), Ok(12));
/// assert_eq!(out[..12], *b"refused 1 0\n");
/// ```
pub fn page(sheet: &[u8], out: &mut [u8]) -> Result<u32, Refusal> {
    lent(sheet, out, ffi::sorzibelu_page)
}

/// What the program livelist prints for any bytes: how long it is, and it at the front of `out`, which is lent
/// [`LIVELIST_BYTES`](crate::LIVELIST_BYTES) or more. A refused sheet's is the line `refused NUMBER PLACE`; only
/// [`ShortOutput`](Refusal::ShortOutput) is an error.
///
/// ```
/// let m1 = sorzibelu::text::assemble("locals 1 user 1 parameters 1 references\nret t0\n")?;
/// let mut out = vec![0; sorzibelu::LIVELIST_BYTES];
/// let length = sorzibelu::livelist(&Vec::try_from(&m1)?, &mut out)? as usize;
/// assert_eq!(out[..length], *b"0 0000000000000001 0000000000000000\ntaken 3\n");
/// # Ok::<(), Box<dyn std::error::Error>>(())
/// ```
pub fn livelist(sheet: &[u8], out: &mut [u8]) -> Result<u32, Refusal> {
    lent(sheet, out, ffi::sorzibelu_livelist)
}

/// A borrow graph as it is handed over: ascending triples of parent, child and edge.
#[derive(Clone, Copy, Debug)]
pub struct Graph<'a> {
    /// How many nodes, [`MAX_NODES`](crate::MAX_NODES) at most.
    pub nodes: u32,
    /// Bit i set where node i is live.
    pub live: u64,
    /// Three numbers a triple, [`MAX_TRIPLES`](crate::MAX_TRIPLES) at most.
    pub triples: &'a [u32],
}

/// Whether a node or a descendant of it is live.
///
/// ```
/// use sorzibelu::{in_use, Graph, Refusal};
/// let graph = Graph { nodes: 3, live: 0b010, triples: &[0, 1, 0, 1, 2, 0] };
/// assert_eq!(in_use(graph, 0), Ok(true));
/// assert_eq!(in_use(graph, 2), Ok(false));
/// assert_eq!(in_use(graph, 3), Err(Refusal::AskedNode));
/// ```
pub fn in_use(graph: Graph, node: u32) -> Result<bool, Refusal> {
    // SAFETY: the call reads `triples`, within its length.
    unpack(unsafe { ffi::sorzibelu_in_use(graph.nodes, graph.live, graph.triples.as_ptr(), graph.triples.len(), node) }).map(|x| x == 1)
}

/// Whether more than one triple leads to a node or to a descendant of it.
///
/// ```
/// use sorzibelu::{conditional, Graph};
/// let graph = Graph { nodes: 3, live: 0, triples: &[0, 1, 0, 0, 1, 1] };
/// assert_eq!([0, 1, 2].map(|node| conditional(graph, node)), [Ok(true), Ok(true), Ok(false)]);
/// ```
pub fn conditional(graph: Graph, node: u32) -> Result<bool, Refusal> {
    // SAFETY: the call reads `triples`, within its length.
    unpack(unsafe { ffi::sorzibelu_conditional(graph.nodes, graph.live, graph.triples.as_ptr(), graph.triples.len(), node) }).map(|x| x == 1)
}

/// The nodes that die from this graph to the next: how many, and a byte for each at the front of `out`, which is lent a byte for each node of
/// this graph or more.
///
/// ```
/// use sorzibelu::{dying, Graph, MAX_NODES};
/// let chain = [0, 1, 0, 1, 2, 0];
/// let (this, next) = (Graph { nodes: 3, live: 0b100, triples: &chain }, Graph { nodes: 3, live: 0, triples: &chain });
/// let mut out = [0; MAX_NODES];
/// assert_eq!(dying(this, next, &mut out), Ok(3));
/// assert_eq!(out[..3], [2, 1, 0]);
/// ```
pub fn dying(graph: Graph, next: Graph, out: &mut [u8]) -> Result<u32, Refusal> {
    // SAFETY: the call reads both lists of triples and reads and writes `out`, within their lengths.
    unpack(unsafe {
        ffi::sorzibelu_dying(
            graph.nodes,
            graph.live,
            graph.triples.as_ptr(),
            graph.triples.len(),
            next.nodes,
            next.live,
            next.triples.as_ptr(),
            next.triples.len(),
            out.as_mut_ptr(),
            out.len(),
        )
    })
}
