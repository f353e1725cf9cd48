//! Document 01's page records as a memory for the Rust, with several ways to find a page among them. The bytes are those that
//! our machine has; only how a page is found differs.

use alloy_primitives::B256;
use anyhow::{bail, Result};
use howitzer::memory::{
    page::{Page, PageIndex},
    Address, Memory,
};
use judge::machine::{Machine, RECORD};
use std::{
    collections::HashMap,
    fmt::Debug,
    hash::{BuildHasherDefault, Hasher},
};

/// A record's 4,104 bytes: the page's number, big-endian, and its bytes.
#[derive(Clone, Copy, Debug)]
#[repr(C)]
pub struct PageRecord {
    number: [u8; 8],
    page: Page,
}

/// A way to find the first used record with a number.
pub trait Lookup: Debug + Default {
    /// Whether the loop calls the step of this memory's machine, which else is inlined into it.
    const CALLED: bool = false;

    fn find(&mut self, records: &[PageRecord], used: usize, number: u64) -> Option<usize>;

    /// Is told of each record that is used, in their order.
    fn used(&mut self, _number: u64, _record: usize) {}
}

/// From the first record on.
#[derive(Debug, Default)]
pub struct List;

impl Lookup for List {
    #[inline(always)]
    fn find(&mut self, records: &[PageRecord], used: usize, number: u64) -> Option<usize> {
        let number = number.to_be_bytes();
        records.iter().take(used).position(|record| record.number == number)
    }
}

const SLOTS: usize = 256;

/// A slot for each end of a number, which keeps the last record that was found there. The list fills it.
#[derive(Debug)]
pub struct Slots {
    slots: [(u64, usize); SLOTS],
}

impl Default for Slots {
    fn default() -> Self {
        // No page has this number.
        Slots { slots: [(u64::MAX, 0); SLOTS] }
    }
}

impl Slots {
    #[cold]
    #[inline(never)]
    fn fill(&mut self, records: &[PageRecord], used: usize, number: u64) -> Option<usize> {
        let record = List.find(records, used, number)?;
        self.slots[number as usize % SLOTS] = (number, record);
        Some(record)
    }
}

impl Lookup for Slots {
    #[inline(always)]
    fn find(&mut self, records: &[PageRecord], used: usize, number: u64) -> Option<usize> {
        match self.slots[number as usize % SLOTS] {
            (held, record) if held == number => Some(record),
            _ => self.fill(records, used, number),
        }
    }
}

/// The hash of a number is a product.
#[derive(Default)]
pub struct Product(u64);

impl Hasher for Product {
    fn write(&mut self, _: &[u8]) {
        unreachable!("only numbers are hashed")
    }

    #[inline(always)]
    fn write_u64(&mut self, number: u64) {
        self.0 = number.wrapping_mul(0x9E37_79B9_7F4A_7C15);
    }

    #[inline(always)]
    fn finish(&self) -> u64 {
        self.0
    }
}

#[derive(Debug, Default)]
pub struct Hash {
    records: HashMap<u64, usize, BuildHasherDefault<Product>>,
}

impl Lookup for Hash {
    #[inline(always)]
    fn find(&mut self, _: &[PageRecord], _: usize, number: u64) -> Option<usize> {
        self.records.get(&number).copied()
    }

    fn used(&mut self, number: u64, record: usize) {
        self.records.entry(number).or_insert(record);
    }
}

/// The same way with a step that is called. Which of the two is faster hangs on the program.
#[derive(Debug, Default)]
pub struct Called<L>(L);

impl<L: Lookup> Lookup for Called<L> {
    const CALLED: bool = true;

    #[inline(always)]
    fn find(&mut self, records: &[PageRecord], used: usize, number: u64) -> Option<usize> {
        self.0.find(records, used, number)
    }

    fn used(&mut self, number: u64, record: usize) {
        self.0.used(number, record);
    }
}

#[derive(Debug, Default)]
pub struct Store<L> {
    records: Vec<PageRecord>,
    pub used: usize,
    lookup: L,
}

impl<L: Lookup> Store<L> {
    pub fn of(m: &Machine) -> Self {
        let records = m.pages.chunks_exact(RECORD).map(|bytes| PageRecord {
            number: bytes[..8].try_into().expect("a number's length"),
            page: bytes[8..].try_into().expect("a page's length"),
        });
        let mut store = Store { records: records.collect(), used: m.used, lookup: L::default() };
        for (i, record) in store.records.iter().take(m.used).enumerate() {
            store.lookup.used(u64::from_be_bytes(record.number), i);
        }
        store
    }

    /// Lays the records into their place in a machine.
    pub fn lay(&self, m: &mut Machine) {
        m.used = self.used;
        for (bytes, record) in m.pages.chunks_exact_mut(RECORD).zip(&self.records) {
            bytes[..8].copy_from_slice(&record.number);
            bytes[8..].copy_from_slice(&record.page);
        }
    }
}

impl<L: Lookup> Memory for Store<L> {
    judge::without_proofs!();

    fn alloc_page(&mut self, number: PageIndex) -> Result<&mut Page> {
        let record = self.used;
        if record >= self.records.len() {
            bail!("no page record left");
        }
        self.used += 1;
        self.records[record] = PageRecord { number: number.to_be_bytes(), page: [0; RECORD - 8] };
        self.lookup.used(number, record);
        Ok(&mut self.records[record].page)
    }

    #[inline(always)]
    fn page_lookup(&mut self, number: PageIndex, _invalidate: bool) -> Option<&mut Page> {
        let record = self.lookup.find(&self.records, self.used, number)?;
        Some(&mut self.records[record].page)
    }
}
