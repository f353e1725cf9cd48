//! Stand-in for the crate `alloy-primitives`: 32 bytes, used as the preimage key.

use std::ops::{Deref, DerefMut};

#[derive(Clone, Copy, Debug, Default, Eq, PartialEq)]
pub struct B256(pub [u8; 32]);

impl Deref for B256 {
    type Target = [u8; 32];

    fn deref(&self) -> &[u8; 32] {
        &self.0
    }
}

impl DerefMut for B256 {
    fn deref_mut(&mut self) -> &mut [u8; 32] {
        &mut self.0
    }
}

impl AsRef<[u8]> for B256 {
    fn as_ref(&self) -> &[u8] {
        &self.0
    }
}

impl PartialEq<[u8; 32]> for B256 {
    fn eq(&self, other: &[u8; 32]) -> bool {
        self.0 == *other
    }
}

/// Only the hash of a state's witness asks for this, and document 01 leaves that out.
pub fn keccak256<T: AsRef<[u8]>>(_: T) -> B256 {
    unimplemented!("state hashes are not compared")
}
