//! Stand-in for the trie memory, which is not among the documents. The machine is generic over its memory; the
//! judge hands it document 01's page records instead (`judge/src/records.rs`).

#[derive(Debug)]
pub struct TrieMemory;
