//! What the proved calls are compared with, and what asks them.
pub mod classes;
pub mod graphs;
pub mod heavy;
pub mod lent;
pub mod masks;
pub mod oracle;
pub mod page;
pub mod plain;
pub mod random;
pub mod stack;

use sorzibelu::sheet::{record_start, Instruction, Sheet, RECORD};

/// A sheet and its bytes where it is known that the one has the other.
pub trait Bytes: Sized {
    /// Of a sheet whose lists have room.
    fn bytes(&self) -> Vec<u8>;
    /// Of the bytes of an accepted sheet.
    fn of_bytes(bytes: &[u8]) -> Self;
}

impl Bytes for Sheet {
    fn bytes(&self) -> Vec<u8> {
        self.try_into().expect("the lists have room")
    }

    // without the proved check, which the plain reading is held against
    fn of_bytes(s: &[u8]) -> Sheet {
        let u16_at = |at: usize| u16::from_le_bytes([s[at], s[at + 1]]);
        let record = |k: usize| s[record_start(k)..].first_chunk::<RECORD>().expect("an accepted sheet");
        Sheet {
            locals: u16_at(6),
            user_locals: u16_at(8),
            parameters: u16_at(10),
            references: u64::from_le_bytes(*s[16..].first_chunk().expect("an accepted sheet")),
            code: (0..u16_at(4) as usize).map(|k| Instruction::try_from(record(k)).expect("an accepted sheet")).collect(),
        }
    }
}
