//! The parts of an executable that are loaded: 64-bit big-endian ELF.

pub struct Program {
    pub entry: u64,
    /// Address and bytes. What an executable wants to be zero beyond them needs no bytes: absent pages read as zero.
    pub parts: Vec<(u64, Vec<u8>)>,
}

const LOAD: u32 = 1;

fn number(bytes: &[u8], at: usize, length: usize) -> u64 {
    bytes[at..at + length].iter().fold(0, |number, byte| number << 8 | *byte as u64)
}

pub fn read(bytes: &[u8]) -> Program {
    assert_eq!(bytes[..6], *b"\x7fELF\x02\x02", "a 64-bit big-endian executable");
    let (table, size, count) = (number(bytes, 0x20, 8), number(bytes, 0x36, 2), number(bytes, 0x38, 2));
    let headers = (0..count).map(|i| (table + i * size) as usize);
    let loaded = headers.filter(|at| number(bytes, *at, 4) as u32 == LOAD).map(|at| {
        let (from, address) = (number(bytes, at + 8, 8) as usize, number(bytes, at + 16, 8));
        (address, bytes[from..from + number(bytes, at + 32, 8) as usize].to_vec())
    });
    Program { entry: number(bytes, 0x18, 8), parts: loaded.collect() }
}
