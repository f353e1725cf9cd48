//! The unchanged Rust of clabby/howitzer, compiled out of the documents' folder (see `build.rs`), and beside it the
//! few functions that the judge needs from inside the crate.

#![allow(dead_code, unused_imports)]

include!(concat!(env!("OUT_DIR"), "/tree.rs"));

use kona_preimage::{HintRouter, PreimageFetcher};
use memory::Memory;
use mips::HowitzerVM;
use std::io::{self, BufWriter};

/// The crate's own sign extension, which it keeps to itself.
pub fn sign_extend(data: u64, index: u64) -> u64 {
    utils::sign_extend(data, index)
}

impl<M, P> HowitzerVM<M, P>
where
    M: Memory,
    P: HintRouter + PreimageFetcher,
{
    pub fn oracle(&mut self) -> &mut P {
        &mut self.preimage_oracle
    }

    /// Forgets what was written. Dropping a filled writer would send its bytes to the real output.
    pub fn discard_written(&mut self) {
        if !self.std_out.buffer().is_empty() {
            let old = std::mem::replace(&mut self.std_out, BufWriter::new(io::stdout()));
            let _ = old.into_parts();
        }
        if !self.std_err.buffer().is_empty() {
            let old = std::mem::replace(&mut self.std_err, BufWriter::new(io::stderr()));
            let _ = old.into_parts();
        }
    }
}
