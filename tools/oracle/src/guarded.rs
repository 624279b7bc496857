//! One call of the whole job, or of saving, over lent memory that was filled with garbage, between guard bytes that are looked at after it.

use std::fmt;

use crate::rng::Rng;

/// `wavendiru_whole_job` and `wavendiru_save_job` of the header.
pub type TextCall = unsafe extern "C" fn(text: *const u8, text_len: usize, lent: *mut u8, lent_len: usize) -> usize;

/// What a call did that no call may do.
#[derive(Debug, Clone, PartialEq, Eq)]
pub enum Fault {
    TextWritten,
    GuardWritten,
    LongerThanLent(usize),
    NotZeroPast(usize),
}

impl fmt::Display for Fault {
    fn fmt(&self, f: &mut fmt::Formatter) -> fmt::Result {
        match self {
            Fault::TextWritten => write!(f, "the job text or a byte beside it was written"),
            Fault::GuardWritten => write!(f, "a byte beside the lent bytes was written"),
            Fault::LongerThanLent(length) => write!(f, "{length} bytes were said to be written, more than were lent"),
            Fault::NotZeroPast(at) => write!(f, "byte {at}, past what was said to be written, is not 0"),
        }
    }
}

const GUARD: usize = 64;

/// Memory with guard bytes at both ends.
struct Lent {
    bytes: Vec<u8>,
    guards: Vec<u8>,
}

impl Lent {
    fn new(rng: &mut Rng, inner: &[u8]) -> Self {
        let guards: Vec<u8> = (0..2 * GUARD).map(|_| rng.next() as u8).collect();
        Lent { bytes: [&guards[..GUARD], inner, &guards[GUARD..]].concat(), guards }
    }

    fn garbage(rng: &mut Rng, length: usize) -> Self {
        // No byte is 0, so that an untouched one shows.
        let word = rng.next() | 0x0101_0101_0101_0101;
        let inner: Vec<u8> = (0..length).map(|at| word.to_le_bytes()[at % 8]).collect();
        Lent::new(rng, &inner)
    }

    fn inner(&self) -> &[u8] {
        &self.bytes[GUARD..self.bytes.len() - GUARD]
    }

    fn guards_hold(&self) -> bool {
        self.bytes[..GUARD] == self.guards[..GUARD] && self.bytes[self.bytes.len() - GUARD..] == self.guards[GUARD..]
    }
}

/// What a call writes into `space` lent bytes; empty if it answers 0.
pub fn call(text_call: TextCall, text: &[u8], space: usize, rng: &mut Rng) -> Result<Vec<u8>, Fault> {
    let source = Lent::new(rng, text);
    let mut lent = Lent::garbage(rng, space);
    // Both pointers lie inside their vectors, with the lengths that the call is told.
    let length = unsafe { text_call(source.bytes.as_ptr().add(GUARD), text.len(), lent.bytes.as_mut_ptr().add(GUARD), space) };
    if source.inner() != text || !source.guards_hold() {
        return Err(Fault::TextWritten);
    }
    if !lent.guards_hold() {
        return Err(Fault::GuardWritten);
    }
    if length > space {
        return Err(Fault::LongerThanLent(length));
    }
    match lent.inner()[length..].iter().position(|&byte| byte != 0) {
        Some(past) => Err(Fault::NotZeroPast(length + past)),
        None => Ok(lent.inner()[..length].to_vec()),
    }
}
