//! The form in which cases and their outcomes are written down. `compare/README.md` describes it.

use crate::{
    answer::Answer,
    cases::Case,
    machine::{Machine, RECORD, STATE},
};
use std::io::{self, Read, Write};

pub const MAGIC: &[u8; 8] = b"RVECTOR1";

/// Limits that a reader may rely on.
pub const MOST_PAGES: usize = 5 * RECORD - 1;
pub const MOST_HINT: usize = 1024;
pub const MOST_OUTPUT: usize = 8191;
pub const MOST_INDEX: usize = 480;
pub const MOST_DATA: usize = 1024;

/// A case, document 01's answer to it and the machine afterwards.
#[derive(Default)]
pub struct Vector {
    pub ordinal: u32,
    pub case: Case,
    pub answer: Option<Answer>,
    pub after: Machine,
}

/// Collects vectors; the count in front is known only at the end.
#[derive(Default)]
pub struct Writer {
    count: u32,
    bytes: Vec<u8>,
}

impl Writer {
    pub fn count(&self) -> u32 {
        self.count
    }

    pub fn add(&mut self, case: &Case, answer: Answer, after: &Machine) {
        let start = self.bytes.len();
        head(&mut self.bytes, self.count, case, answer, after);
        let (before, fill) = (&case.machine, case.fill);
        assert!(fits(before), "a vector keeps to the limits");
        let out = &mut self.bytes;
        patches(out, |_| 0, &before.state);
        for buffer in [&before.pages, &before.hint, &before.output, &before.index, &before.data] {
            patches(out, |_| fill, buffer);
        }
        patches(out, |i| before.state[i], &after.state);
        for (old, new) in [(&before.pages, &after.pages), (&before.hint, &after.hint), (&before.output, &after.output)]
        {
            assert!(old.len() == new.len(), "lent buffers keep their length");
            patches(out, |i| old[i], new);
        }
        let length = (self.bytes.len() - start) as u32;
        self.bytes[start..start + 4].copy_from_slice(&length.to_be_bytes());
        self.count += 1;
    }

    pub fn finish(&self, out: &mut dyn Write) -> io::Result<()> {
        out.write_all(MAGIC)?;
        out.write_all(&self.count.to_be_bytes())?;
        out.write_all(&self.bytes)
    }
}

fn head(out: &mut Vec<u8>, ordinal: u32, case: &Case, answer: Answer, after: &Machine) {
    let m = &case.machine;
    let (kind, first, second) = answer.numbers();
    out.extend_from_slice(&[0; 4]);
    out.extend_from_slice(&ordinal.to_be_bytes());
    out.extend_from_slice(&[case.class, case.fill, kind, 0]);
    out.extend_from_slice(&first.to_be_bytes());
    out.extend_from_slice(&second.to_be_bytes());
    for number in [m.used, after.used, m.pages.len(), m.hint.len(), m.output.len(), m.index.len(), m.data.len()] {
        out.extend_from_slice(&(number as u16).to_be_bytes());
    }
}

/// Whether a machine keeps to the limits of the form.
pub fn fits(m: &Machine) -> bool {
    let lent = m.pages.len() <= MOST_PAGES && m.hint.len() <= MOST_HINT && m.output.len() <= MOST_OUTPUT;
    lent && m.index.len() <= MOST_INDEX && m.data.len() <= MOST_DATA
}

/// Appends the patches that turn `base` into `bytes`. A patch costs six bytes beside its own, so two that stand
/// closer than that are one.
fn patches(out: &mut Vec<u8>, base: impl Fn(usize) -> u8, bytes: &[u8]) {
    let count_at = out.len();
    let mut count = 0u16;
    let mut next = 0;
    out.extend_from_slice(&[0; 2]);
    while let Some(start) = (next..bytes.len()).find(|i| bytes[*i] != base(*i)) {
        let mut end = start + 1;
        while let Some(more) = (end..bytes.len().min(end + 6)).find(|i| bytes[*i] != base(*i)) {
            end = more + 1;
        }
        out.extend_from_slice(&(start as u32).to_be_bytes());
        out.extend_from_slice(&((end - start) as u16).to_be_bytes());
        out.extend_from_slice(&bytes[start..end]);
        count += 1;
        next = end;
    }
    out[count_at..count_at + 2].copy_from_slice(&count.to_be_bytes());
}

/// Reads vectors one after another.
pub struct Reader<R> {
    input: R,
    pub count: u32,
    next: u32,
    bytes: Vec<u8>,
}

impl<R: Read> Reader<R> {
    pub fn new(mut input: R) -> io::Result<Self> {
        let mut head = [0; 12];
        input.read_exact(&mut head)?;
        if head[..8] != MAGIC[..] {
            return Err(bad("not a list of vectors"));
        }
        let count = u32::from_be_bytes(head[8..].try_into().unwrap());
        Ok(Reader { input, count, next: 0, bytes: Vec::new() })
    }

    /// The next vector, or false behind the last one, where nothing may follow.
    pub fn read(&mut self, vector: &mut Vector) -> io::Result<bool> {
        if self.next == self.count {
            return match self.input.read(&mut [0])? {
                0 => Ok(false),
                _ => Err(bad("bytes after the last vector")),
            };
        }
        let mut length = [0; 4];
        self.input.read_exact(&mut length)?;
        let length = u32::from_be_bytes(length) as usize;
        self.bytes.resize(length.checked_sub(4).ok_or_else(|| bad("length"))?, 0);
        self.input.read_exact(&mut self.bytes)?;
        parse(&self.bytes, vector).ok_or_else(|| bad("a vector that breaks the form"))?;
        if vector.ordinal != self.next {
            return Err(bad("ordinal"));
        }
        self.next += 1;
        Ok(true)
    }
}

fn bad(text: &str) -> io::Error {
    io::Error::new(io::ErrorKind::InvalidData, text)
}

/// Reads a vector without its first four bytes.
fn parse(mut bytes: &[u8], v: &mut Vector) -> Option<()> {
    let from = &mut bytes;
    v.ordinal = number(from, 4)?;
    (v.case.class, v.case.fill) = (number(from, 1)? as u8, number(from, 1)? as u8);
    let (kind, spare) = (number(from, 1)?, number(from, 1)?);
    v.answer = Some(Answer::from_numbers(kind as u8, number(from, 4)?, number(from, 4)?)?);
    let (before, after, fill) = (&mut v.case.machine, &mut v.after, v.case.fill);
    before.used = number(from, 2)? as usize;
    let used_after = number(from, 2)? as usize;
    before.state = [0; STATE];
    for buffer in [&mut before.pages, &mut before.hint, &mut before.output, &mut before.index, &mut before.data] {
        buffer.clear();
        buffer.resize(number(from, 2)? as usize, fill);
    }
    apply(from, &mut before.state)?;
    for buffer in [&mut before.pages, &mut before.hint, &mut before.output, &mut before.index, &mut before.data] {
        apply(from, buffer)?;
    }
    after.copy_from(before);
    after.used = used_after;
    apply(from, &mut after.state)?;
    for buffer in [&mut after.pages, &mut after.hint, &mut after.output] {
        apply(from, buffer)?;
    }
    (from.is_empty() && spare == 0).then_some(())
}

fn number(from: &mut &[u8], length: usize) -> Option<u32> {
    let bytes = take(from, length)?;
    Some(bytes.iter().fold(0, |number, byte| number << 8 | *byte as u32))
}

fn take<'a>(from: &mut &'a [u8], length: usize) -> Option<&'a [u8]> {
    let bytes = from.get(..length)?;
    *from = &from[length..];
    Some(bytes)
}

/// Applies a patch list. Patches rise and do not touch one another.
fn apply(from: &mut &[u8], buffer: &mut [u8]) -> Option<()> {
    let mut next = 0;
    for _ in 0..number(from, 2)? {
        let (start, length) = (number(from, 4)? as usize, number(from, 2)? as usize);
        if start < next || length == 0 {
            return None;
        }
        buffer.get_mut(start..start + length)?.copy_from_slice(take(from, length)?);
        next = start + length;
    }
    Some(())
}
