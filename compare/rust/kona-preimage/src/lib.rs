//! Stand-in for the crate `kona-preimage`: where hints go and where inputs come from.
//!
//! The live oracle gives futures that wait. Here every answer is at hand, so the futures are ready at once.

use anyhow::Result;
use std::future::Ready;

/// The key of an input. The live oracle refuses keys whose first byte names no type it knows; document 01's
/// machine has no such types, so every 32 bytes are a key here.
#[derive(Clone, Copy, Debug, Eq, PartialEq)]
pub struct PreimageKey(pub [u8; 32]);

impl From<[u8; 32]> for PreimageKey {
    fn from(bytes: [u8; 32]) -> Self {
        PreimageKey(bytes)
    }
}

pub trait HintRouter {
    fn route_hint(&self, hint: String) -> Ready<Result<()>>;
}

pub trait PreimageFetcher {
    fn get_preimage(&self, key: PreimageKey) -> Ready<Result<Vec<u8>>>;
}
