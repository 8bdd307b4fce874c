//! SHA-256 in portions.
use crate::ffi;
use crate::refusal::{answered, Refusal};

/// A hash under way. Every value of the fields is possible; document 01 decides what each gives.
#[repr(C)]
#[derive(Clone, Debug, PartialEq, Eq)]
pub struct Hash {
    /// The eight hash words.
    pub words: [u32; 8],
    /// The bytes that wait for their block to fill: the first `taken % 64`. When they fill a block they go into the words, and the
    /// whole tail is zero again.
    pub tail: [u8; 64],
    /// How many bytes were taken in all.
    pub taken: u64,
}

/// A digest, and the 64-byte blocks that SHA-256 compressed for it: of a message of L bytes (L + 8) / 64, rounded down, plus
/// 1, however it was cut into portions.
#[derive(Clone, Copy, Debug, PartialEq, Eq)]
pub struct Hashed {
    pub digest: [u8; 32],
    pub blocks: u64,
}

impl Hash {
    /// A hash that has taken nothing.
    pub fn new() -> Hash {
        // SAFETY: the call has no arguments.
        unsafe { ffi::mastdock_hash_new() }
    }

    /// Takes a portion more. Refused with 5, which leaves the hash as it was.
    pub fn update(&mut self, part: &[u8]) -> Result<(), Refusal> {
        // SAFETY: the pointer and length are a slice's, and every state is allowed.
        let updated = unsafe { ffi::mastdock_hash_update(self.clone(), part.as_ptr(), part.len()) };
        *self = updated.hash;
        answered(updated.refusal, ())
    }

    /// The digest of all that was taken. Refused with 5.
    pub fn finish(&self) -> Result<[u8; 32], Refusal> {
        self.finish_blocks().map(|hashed| hashed.digest)
    }

    /// The same with the blocks of the whole message, those that its portions filled among them. Refused with 5.
    pub fn finish_blocks(&self) -> Result<Hashed, Refusal> {
        // SAFETY: every state is allowed.
        let finished = unsafe { ffi::mastdock_hash_finish(self.clone()) };
        answered(finished.refusal, Hashed { digest: finished.digest, blocks: finished.blocks })
    }
}

impl Default for Hash {
    fn default() -> Hash {
        Hash::new()
    }
}

/// The digest of a whole message; a report's is its statement. Refused with 5.
pub fn digest(message: &[u8]) -> Result<[u8; 32], Refusal> {
    digest_blocks(message).map(|hashed| hashed.digest)
}

/// The same with the message's blocks. Refused with 5.
pub fn digest_blocks(message: &[u8]) -> Result<Hashed, Refusal> {
    // SAFETY: the pointer and length are a slice's.
    let digested = unsafe { ffi::mastdock_digest(message.as_ptr(), message.len()) };
    answered(digested.refusal, Hashed { digest: digested.digest, blocks: digested.blocks })
}
