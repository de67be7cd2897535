//! Sheets as text: one instruction a line, written and read by hand. Text of an accepted sheet assembles to its bytes again, and with raw lines any bytes have a text.
//!
//! ```text
//! locals 2 user 2 parameters 2 references
//! label L1
//! branch L1 L2 on t0
//! label L2
//! ret t1
//! ```
//!
//! | kind | line |
//! |---|---|
//! | Assign | `t1 <- copy t0`, `move`, `store` |
//! | Call | `t1 t2 <- call Not t0 t3`, `call Destroy t1`; with an abort action `.. abort L1 into t0` |
//! | Ret, Abort | `ret t0 t1`, `abort t0` |
//! | Load | `t0 <- load U64` |
//! | Branch, Jump, Label | `branch L1 L2 on t0`, `jump L1`, `label L1` |
//! | Nop, SaveMem, SaveSpecVar | `nop`, `savemem`, `savespecvar` |
//! | Prop | `prop Assert t0 t1` |
//!
//! Behind an instruction `#5` is its payload and `@7` its attribute id, 0 where they are left out. `//` starts a comment. In front of an
//! instruction its offset may stand, as `0: nop`; a wrong one is an error. What no instruction can say is written raw, field by field:
//! `raw kind 12 sources 1 t0`, `block 1 number 7 check 99 at 4 ff`, and in the heading `count 3` and `bytes 1000`. docs/TEXT.md has the whole form.
mod fault;
mod line;
mod list;
mod names;
mod raw;
mod read;
mod words;

pub use fault::{Fault, Faults};
pub use list::{instruction, list};
pub use names::{ASSIGNS, CONSTANTS, OPERATIONS, PROPS};
pub use read::{assemble, list_raw, read, Written};
pub(crate) use read::{heading_line, instruction_line, starts_heading};
pub(crate) use words::{digits, hint, lines, quoted, Words};
