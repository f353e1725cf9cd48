//! Building a case: a state, pages with an instruction in them, and everything else filled so that a byte too many
//! would show.

use crate::{cases::Case, machine::*, rng::Rng};

/// Whole records a case may have.
const MOST_RECORDS: usize = 4;

pub struct Scene<'a> {
    pub rng: &'a mut Rng,
    pub case: &'a mut Case,
}

impl<'a> Scene<'a> {
    /// An empty memory and a state in which what the instruction doesn't use is there to be spoilt.
    pub fn new(rng: &'a mut Rng, case: &'a mut Case, class: u8) -> Self {
        let fill = rng.pick(&[0xA5, 0x5A, 0xC3, 0xFF, 0x81, 0x11]);
        Self::filled(rng, case, class, fill)
    }

    /// For a step that may open a page: its 4,096 zeros make a long vector unless the record was zero before, so
    /// only few of these are filled with anything else.
    pub fn opening(rng: &'a mut Rng, case: &'a mut Case, class: u8) -> Self {
        let fill = if rng.one_in(8) { 0xA5 } else { 0 };
        Self::filled(rng, case, class, fill)
    }

    fn filled(rng: &'a mut Rng, case: &'a mut Case, class: u8, fill: u8) -> Self {
        (case.class, case.fill) = (class, fill);
        let mut scene = Scene { rng, case };
        scene.clear();
        scene.numbers();
        scene.registers();
        scene.buffers();
        scene
    }

    pub fn m(&mut self) -> &mut Machine {
        &mut self.case.machine
    }

    fn clear(&mut self) {
        let m = self.m();
        m.state = [0; STATE];
        m.used = 0;
        for buffer in [&mut m.pages, &mut m.hint, &mut m.output, &mut m.index, &mut m.data] {
            buffer.clear();
        }
    }

    fn numbers(&mut self) {
        let rng = &mut *self.rng;
        let m = &mut self.case.machine;
        m.set(STEP, if rng.one_in(16) { u64::MAX } else { rng.below(256) });
        if rng.one_in(4) {
            m.set(HI, rng.value());
            m.set(LO, rng.value());
            m.set(HEAP, rng.value());
        }
        m.set(OFFSET, if rng.one_in(8) { rng.value() } else { rng.below(8) });
        if rng.one_in(8) {
            rng.fill(&mut m.state[KEY..KEY + 32]);
        }
        m.state[KEY + rng.index(32)] = 1 + rng.below(255) as u8;
        m.state[CODE] = if rng.one_in(4) { rng.next() as u8 } else { 0 };
    }

    /// Either every register is full, or only few are, which keeps most vectors short.
    fn registers(&mut self) {
        let rng = &mut *self.rng;
        let m = &mut self.case.machine;
        if rng.one_in(6) {
            for register in 0..32 {
                m.set_reg(register, rng.value());
            }
        } else {
            m.set_reg(rng.register(), rng.value());
            m.set_reg(0, if rng.one_in(2) { rng.value() } else { 0 });
        }
    }

    fn buffers(&mut self) {
        let hint = self.rng.index(40);
        let held = self.rng.index(hint + 1).min(12);
        self.hold_hint(hint, 0);
        if self.rng.one_in(4) {
            self.hold_hint(hint, held);
        }
        self.room(40);
    }

    /// A hint buffer of this length that holds so many random bytes.
    pub fn hold_hint(&mut self, length: usize, held: usize) {
        let fill = self.case.fill;
        self.case.machine.hint.clear();
        self.case.machine.hint.resize(length, fill);
        self.rng.fill(&mut self.case.machine.hint[..held]);
        self.m().set(HINT_LENGTH, held as u64);
    }

    /// An output buffer shorter than this.
    pub fn room(&mut self, bound: usize) {
        let length = self.rng.index(bound);
        self.output(length);
    }

    pub fn output(&mut self, length: usize) {
        let fill = self.case.fill;
        self.case.machine.output.clear();
        self.case.machine.output.resize(length, fill);
    }

    /// A used record for the page, at the end of the records used so far.
    pub fn record(&mut self, number: u64) {
        let fill = self.case.fill;
        let m = &mut self.case.machine;
        assert!(m.used < MOST_RECORDS, "a case has room for {MOST_RECORDS} pages");
        m.pages.resize(m.used * RECORD, fill);
        m.pages.extend_from_slice(&number.to_be_bytes());
        m.used += 1;
        m.pages.resize(m.used * RECORD, fill);
    }

    /// Puts bytes into memory, opening the pages they need.
    pub fn put(&mut self, address: u64, bytes: &[u8]) {
        for (i, byte) in bytes.iter().enumerate() {
            let at = address.wrapping_add(i as u64);
            let number = at / PAGE as u64;
            if self.m().page(number).is_none() {
                self.record(number);
            }
            let start = self.m().page(number).unwrap();
            self.m().pages[start + at as usize % PAGE] = *byte;
        }
    }

    /// An address for the instruction: page edges, ends of regions and of the address space, or anywhere.
    pub fn pc(&mut self) -> u64 {
        let rng = &mut *self.rng;
        match rng.below(16) {
            0 => rng.pick(&[0, 0x0FFF_FFFC, 0x0FFF_FFF8, 0x7FFF_FFFC, 0x8000_0000, 0xFFFF_FFFC]),
            1 => rng.pick(&[u64::MAX - 3, u64::MAX - 7, 0xFFFF_FFFF_7FFF_FFFC, 0xFFFF_FFFF_8000_0000]),
            2 => rng.next() & !3,
            3 => rng.pick(&[0x0FFC, 0x1000, 0x1FFC, 0x2000]),
            _ => rng.below(0x8000) & !3,
        }
    }

    /// A pc, mostly with the next instruction behind it, sometimes in a delay slot.
    pub fn spot(&mut self) -> (u64, u64) {
        let pc = self.pc();
        let next = if self.rng.one_in(6) { self.elsewhere(pc) } else { pc.wrapping_add(4) };
        (pc, next)
    }

    /// The instruction as the only one in memory, and the end of the building.
    pub fn code(&mut self, word: u32) {
        let (pc, next) = self.spot();
        self.code_at(pc, next, word);
        self.close(pc / PAGE as u64);
    }

    /// A next instruction that is not the one behind this.
    pub fn elsewhere(&mut self, pc: u64) -> u64 {
        let rng = &mut *self.rng;
        let next = match rng.below(6) {
            0 => pc,
            1 => pc.wrapping_add(8),
            2 => rng.below(0x8000) & !3,
            3 => rng.pick(&[0, u64::MAX - 3, u64::MAX]),
            4 => rng.value(),
            _ => rng.value() & !3,
        };
        if next == pc.wrapping_add(4) {
            pc
        } else {
            next
        }
    }

    pub fn code_at(&mut self, pc: u64, next_pc: u64, word: u32) {
        self.put(pc, &word.to_be_bytes());
        self.m().set(PC, pc);
        self.m().set(NEXT_PC, next_pc);
    }

    /// Ends the building: records that aren't used, some under a number that is looked for, and a last bit that is
    /// no whole record.
    pub fn close(&mut self, looked_for: u64) {
        let (fill, used) = (self.case.fill, self.case.machine.used);
        let spare = self.rng.index(MOST_RECORDS - used + 1).min(2);
        let rest = self.rng.pick(&[0, 0, 1, 8, 12, RECORD - 1]);
        self.m().pages.resize((used + spare) * RECORD + rest, fill);
        if spare > 0 && self.rng.one_in(3) {
            self.m().pages[used * RECORD..][..8].copy_from_slice(&looked_for.to_be_bytes());
        }
    }
}
