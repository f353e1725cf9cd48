//! Instruction words from their fields.

/// Opcodes that lead to further codes.
pub const SPECIAL: u32 = 0x00;
pub const REGIMM: u32 = 0x01;
pub const SPECIAL2: u32 = 0x1C;

pub const fn r_type(opcode: u32, rs: u32, rt: u32, rd: u32, shamt: u32, funct: u32) -> u32 {
    opcode << 26 | rs << 21 | rt << 16 | rd << 11 | shamt << 6 | funct
}

pub const fn i_type(opcode: u32, rs: u32, rt: u32, immediate: u32) -> u32 {
    opcode << 26 | rs << 21 | rt << 16 | immediate & 0xFFFF
}

pub const fn j_type(opcode: u32, index: u32) -> u32 {
    opcode << 26 | index & 0x03FF_FFFF
}

/// What an immediate adds to an address.
pub fn signed(immediate: u32) -> u64 {
    immediate as i16 as i64 as u64
}
