//! Document 01's machine as bytes: the state and what is lent beside it.

/// Length of a state, and where its parts begin. Registers stand at 0, eight bytes each.
pub const STATE: usize = 360;
pub const PC: usize = 256;
pub const NEXT_PC: usize = 264;
pub const HI: usize = 272;
pub const LO: usize = 280;
pub const HEAP: usize = 288;
pub const STEP: usize = 296;
pub const OFFSET: usize = 304;
pub const HINT_LENGTH: usize = 312;
pub const KEY: usize = 320;
pub const EXITED: usize = 352;
pub const CODE: usize = 353;
pub const RULES: usize = 354;

pub const PAGE: usize = 4096;
/// A page record: the page's number, then its bytes.
pub const RECORD: usize = 8 + PAGE;
/// An input record: key, start, length.
pub const INPUT: usize = 48;
/// Hint room is the hint buffer's length, but no more than this.
pub const MOST_HINT_ROOM: usize = 65_536;

#[derive(Clone, Debug, Eq, PartialEq)]
pub struct Machine {
    pub state: [u8; STATE],
    pub used: usize,
    pub pages: Vec<u8>,
    pub hint: Vec<u8>,
    pub output: Vec<u8>,
    pub index: Vec<u8>,
    pub data: Vec<u8>,
}

impl Default for Machine {
    fn default() -> Self {
        let empty = Vec::new;
        Machine {
            state: [0; STATE],
            used: 0,
            pages: empty(),
            hint: empty(),
            output: empty(),
            index: empty(),
            data: empty(),
        }
    }
}

/// A system call as the registers ask for it.
#[derive(Clone, Copy, Debug)]
pub struct Call {
    pub number: u32,
    pub descriptor: u32,
    pub a1: u64,
    pub a2: u64,
}

impl Machine {
    /// The eight bytes of the state at an offset, as a number.
    pub fn get(&self, offset: usize) -> u64 {
        u64::from_be_bytes(self.state[offset..offset + 8].try_into().unwrap())
    }

    pub fn set(&mut self, offset: usize, value: u64) {
        self.state[offset..offset + 8].copy_from_slice(&value.to_be_bytes());
    }

    pub fn reg(&self, number: u32) -> u64 {
        self.get(8 * number as usize)
    }

    pub fn set_reg(&mut self, number: u32, value: u64) {
        self.set(8 * number as usize, value);
    }

    pub fn key(&self) -> &[u8] {
        &self.state[KEY..KEY + 32]
    }

    pub fn exited(&self) -> bool {
        self.state[EXITED] != 0
    }

    pub fn hint_room(&self) -> usize {
        self.hint.len().min(MOST_HINT_ROOM)
    }

    /// Takes over another machine without giving up the buffers held.
    pub fn copy_from(&mut self, other: &Machine) {
        self.copy_but_pages(other);
        self.pages.clone_from(&other.pages);
    }

    /// The same for one whose pages come from elsewhere: they are by far the longest part.
    pub fn copy_but_pages(&mut self, other: &Machine) {
        self.state = other.state;
        self.used = other.used;
        self.hint.clone_from(&other.hint);
        self.output.clone_from(&other.output);
        self.index.clone_from(&other.index);
        self.data.clone_from(&other.data);
    }

    /// Where the page with this number lies among the page bytes: the first used record decides.
    pub fn page(&self, number: u64) -> Option<usize> {
        let whole = self.pages.chunks_exact(RECORD).take(self.used);
        let found = whole.map(|record| &record[..8]).position(|held| held == number.to_be_bytes());
        found.map(|record| record * RECORD + 8)
    }

    pub fn byte(&self, address: u64) -> u8 {
        let page = self.page(address / PAGE as u64);
        page.map_or(0, |start| self.pages[start + address as usize % PAGE])
    }

    pub fn word(&self, address: u64) -> u32 {
        (0..4).fold(0, |word, i| word << 8 | self.byte(address.wrapping_add(i)) as u32)
    }

    /// The instruction that a step would carry out, if it gets that far.
    pub fn instruction(&self) -> Option<u32> {
        let pc = self.get(PC);
        (!self.exited() && pc % 4 == 0).then(|| self.word(pc))
    }

    pub fn call(&self) -> Option<Call> {
        let word = self.instruction()?;
        let (number, descriptor) = (self.reg(2) as u32, self.reg(4) as u32);
        (word >> 26 == 0 && word & 0x3F == 0x0C).then(|| Call { number, descriptor, a1: self.reg(5), a2: self.reg(6) })
    }
}
