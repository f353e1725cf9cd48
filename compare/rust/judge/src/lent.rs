//! Document 01's input index and data, and a place for hints, in the place of the live oracle.

use anyhow::{anyhow, Result};
use kona_preimage::{HintRouter, PreimageFetcher, PreimageKey};
use std::{
    cell::RefCell,
    future::{ready, Ready},
};

use crate::machine::INPUT;

/// The error of an input that cannot be fetched. Document 01's refusal 10, outside the compared domain.
pub const NO_INPUT: &str = "no such input";

#[derive(Debug, Default)]
pub struct Lent {
    pub index: Vec<u8>,
    pub data: Vec<u8>,
    pub hints: RefCell<Vec<String>>,
}

impl Lent {
    /// The data that the first whole record with the key names, if that lies inside.
    fn find(&self, key: &[u8; 32]) -> Option<&[u8]> {
        let record = self.index.chunks_exact(INPUT).find(|record| record[..32] == key[..])?;
        let number = |at: usize| usize::from_be_bytes(record[at..at + 8].try_into().unwrap());
        let (start, length) = (number(32), number(40));
        self.data.get(start..start.checked_add(length)?)
    }
}

impl HintRouter for Lent {
    fn route_hint(&self, hint: String) -> Ready<Result<()>> {
        self.hints.borrow_mut().push(hint);
        ready(Ok(()))
    }
}

impl PreimageFetcher for Lent {
    fn get_preimage(&self, key: PreimageKey) -> Ready<Result<Vec<u8>>> {
        ready(self.find(&key.0).map(<[u8]>::to_vec).ok_or_else(|| anyhow!("{}", NO_INPUT)))
    }
}
