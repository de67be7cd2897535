//! What a request comes to: data, or a number that says why not.

/// The Rust does not finish: it recurses into a node it is working on.
pub const ENDLESS: u8 = 200;
/// The Rust would finish, but after too many calls or paths.
pub const TOO_LONG: u8 = 201;
pub const BAD_OP: u8 = 254;
pub const PANIC: u8 = 255;

/// Anything but an answer: number, place, further bytes.
pub struct No(pub u8, pub u32, pub Vec<u8>);
pub type Answer = Result<Vec<u8>, No>;

pub fn no<T>(number: u8, place: u32) -> Result<T, No> {
    Err(No(number, place, vec![]))
}
