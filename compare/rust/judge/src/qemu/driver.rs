//! Talks to the program in `compare/qemu/driver.s`, which has the layouts of jobs and results.

use std::{
    io::{Read, Write},
    path::Path,
    process::{Child, ChildStdin, ChildStdout, Command, Stdio},
};

pub const JOB: usize = 0x1C0;
pub const RESULT: usize = 0x148;

/// Jobs that go out before their results are read. Both ways fit into what a pipe holds, so nobody waits for ever.
pub const BATCH: usize = 128;

/// The processor that QEMU plays: MIPS64 of the first release, as the default of `qemu-mips64` is.
const PROCESSOR: &str = "5KEf";

/// What all registers hold, what lies in memory and where to start.
#[derive(Clone)]
pub struct Job(pub [u8; JOB]);

impl Default for Job {
    fn default() -> Self {
        Job([0; JOB])
    }
}

impl Job {
    fn set(&mut self, at: usize, value: u64) {
        self.0[at..at + 8].copy_from_slice(&value.to_be_bytes());
    }

    pub fn register(&mut self, number: u32, value: u64) {
        self.set(8 * number as usize, value);
    }

    pub fn hi_lo(&mut self, hi: u64, lo: u64) {
        self.set(0x100, hi);
        self.set(0x108, lo);
    }

    pub fn start(&mut self, address: u64) {
        self.set(0x110, address);
    }

    /// 24 bytes of memory that are looked at again afterwards.
    pub fn window(&mut self, address: u64, bytes: [u8; 24]) {
        self.set(0x118, address);
        self.0[0x120..0x138].copy_from_slice(&bytes);
    }

    pub fn lay(&mut self, address: u64, word: u32) {
        let count = self.0[0x13F] as usize;
        assert!(count < 8, "a job lays at most eight words");
        self.set(0x140 + 16 * count, address);
        self.0[0x148 + 16 * count..][..4].copy_from_slice(&word.to_be_bytes());
        self.0[0x13F] += 1;
    }
}

/// What came of a job.
pub struct Outcome<'a>(&'a [u8]);

impl Outcome<'_> {
    fn get(&self, at: usize) -> u64 {
        u64::from_be_bytes(self.0[at..at + 8].try_into().unwrap())
    }

    pub fn register(&self, number: u32) -> u64 {
        self.get(8 * number as usize)
    }

    pub fn hi(&self) -> u64 {
        self.get(0x100)
    }

    pub fn lo(&self) -> u64 {
        self.get(0x108)
    }

    /// Whether the `sd $0` that clears this mark was reached.
    pub fn reached(&self, mark: usize) -> bool {
        self.get(0x110 + 8 * mark) == 0
    }

    pub fn signal(&self) -> u64 {
        self.get(0x128)
    }

    pub fn window(&self) -> [u8; 24] {
        self.0[0x130..0x148].try_into().unwrap()
    }
}

pub struct Driver {
    child: Child,
    input: Option<ChildStdin>,
    output: ChildStdout,
}

impl Driver {
    pub fn start(program: &Path) -> Self {
        let mut command = Command::new("qemu-mips64");
        command.args(["-cpu", PROCESSOR]).arg(program).stdin(Stdio::piped()).stdout(Stdio::piped());
        let mut child = command.spawn().expect("qemu-mips64 runs (Debian's qemu-user)");
        let (input, output) = (child.stdin.take(), child.stdout.take().expect("a pipe"));
        Driver { child, input, output }
    }

    /// Runs at most `BATCH` jobs and shows each outcome, in order.
    pub fn run(&mut self, jobs: &[Job], mut show: impl FnMut(usize, Outcome)) {
        assert!(jobs.len() <= BATCH);
        let bytes: Vec<u8> = jobs.iter().flat_map(|job| job.0).collect();
        self.input.as_mut().expect("a pipe").write_all(&bytes).expect("the driver takes jobs");
        let mut results = vec![0; RESULT * jobs.len()];
        self.output.read_exact(&mut results).expect("the driver gives results");
        for (i, result) in results.chunks(RESULT).enumerate() {
            show(i, Outcome(result));
        }
    }
}

impl Drop for Driver {
    /// The end of its input is the end of the driver.
    fn drop(&mut self) {
        drop(self.input.take());
        let _ = self.child.wait();
    }
}
