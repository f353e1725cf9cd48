//! Document 01's page records as a memory for the Rust, in the place of its trie.

use alloy_primitives::B256;
use anyhow::{bail, Result};
use howitzer::memory::{
    page::{Page, PageIndex},
    Address, Memory,
};

use crate::machine::RECORD;

/// What a memory answers about roots and proofs, which nothing here asks for. For a type with a field `used`.
#[macro_export]
macro_rules! without_proofs {
    () => {
        type Proof = ();

        fn page_count(&self) -> usize {
            self.used
        }

        fn merkleize(&mut self) -> Result<B256> {
            unimplemented!("roots are not compared")
        }

        fn proof(&mut self, _: Address) -> Result<()> {
            unimplemented!("proofs are not compared")
        }
    };
}

/// The error of a store for which no record is left. Document 01's refusal 8, outside the compared domain.
pub const NO_RECORD: &str = "no page record left";

#[derive(Debug, Default)]
pub struct Records {
    pub pages: Vec<u8>,
    pub used: usize,
}

impl Records {
    /// The first used record with the number.
    fn find(&self, number: u64) -> Option<usize> {
        let number = number.to_be_bytes();
        self.pages.chunks_exact(RECORD).take(self.used).position(|record| record[..8] == number)
    }

    fn page_of(&mut self, record: usize) -> &mut Page {
        let start = record * RECORD + 8;
        (&mut self.pages[start..start + RECORD - 8]).try_into().expect("a page's length")
    }
}

impl Memory for Records {
    without_proofs!();

    fn alloc_page(&mut self, number: PageIndex) -> Result<&mut Page> {
        let record = self.used;
        if record >= self.pages.len() / RECORD {
            bail!("{}", NO_RECORD);
        }
        self.used += 1;
        self.pages[record * RECORD..][..8].copy_from_slice(&number.to_be_bytes());
        let page = self.page_of(record);
        page.fill(0);
        Ok(page)
    }

    fn page_lookup(&mut self, number: PageIndex, _invalidate: bool) -> Option<&mut Page> {
        self.find(number).map(|record| self.page_of(record))
    }
}
