//! Choosing steps out of the judges' lists: of each class the one that shows most, and the first of those.

use super::{
    record::{is_branch, is_conditional, is_load_or_store, rd, rs, rt, StepRecord, NEW, NEW_EIGHT, OLD, OLD_EIGHT},
    Verdict, OLD_EXITED, STEP_REFUSED, WIDE,
};
use crate::{
    answer::Answer,
    cases::EXAMPLE,
    coverage::{every_code, name},
    examples::{Example, EXAMPLES},
    machine::{Call, EXITED, NEXT_PC, PC, RULES, STATE, STEP},
    vector::Vector,
};
use std::collections::BTreeMap;

/// What records are chosen by: the checker's answer, the rules, the instruction and what it does this time.
#[derive(Clone, Debug, Eq, Ord, PartialEq, PartialOrd)]
pub struct Class {
    pub verdict: Verdict,
    pub rules: u8,
    pub name: String,
    pub variant: String,
}

/// A step out of a list, as a record.
pub struct Step {
    pub record: StepRecord,
    pub example: Option<&'static Example>,
    shows: Shows,
}

type Shows = (bool, usize, usize);

#[derive(Default)]
pub struct Chosen {
    pub steps: BTreeMap<Class, Step>,
}

/// The recordable calls and descriptors; 7 stands for all higher ones.
const CALLS: [&str; 31] = [
    "5000 on 0",
    "5000 on 1",
    "5000 on 2",
    "5000 on 3",
    "5000 on 4",
    "5000 on 6",
    "5000 on 7",
    "5001 on 0",
    "5001 on 3",
    "5001 on 5",
    "5001 on 6, 0 bytes",
    "5001 on 6, 8 bytes",
    "5001 on 6, by its count from offset 0",
    "5001 on 6, by its count",
    "5001 on 6, by the doubleword",
    "5001 on 7",
    "5009 at a0",
    "5009 at the heap",
    "5012",
    "5055",
    "5070 on 0",
    "5070 on 1",
    "5070 on 2",
    "5070 on 3",
    "5070 on 4",
    "5070 on 5",
    "5070 on 6",
    "5070 on 7",
    "5070 with another command",
    "5205",
    "unknown",
];

const WIDE_CALLS: [&str; 4] = ["5000 on 5", "5001 on 1", "5001 on 2", "5001 on 4"];

impl Chosen {
    /// Takes a step if its class has none yet, or one that shows less.
    pub fn offer(&mut self, vector: &Vector) {
        let (before, after) = (&vector.case.machine, &vector.after);
        let record = StepRecord::of(before, after);
        assert!(record.is_of_form(), "the lists hold states of document 01's form");
        let class = class(vector, &record);
        let shows = shows(&record);
        if self.steps.get(&class).map_or(true, |step| step.shows < shows) {
            let example = EXAMPLES.iter().find(|e| vector.case.class == EXAMPLE && e.word == record.word());
            self.steps.insert(class, Step { record, example, shows });
        }
    }

    fn has(&self, verdict: Verdict, rules: u8, name: &str, variant: &str) -> bool {
        let fits = |class: &Class| {
            (class.verdict, class.rules, &class.name[..]) == (verdict, rules, name)
                && class.variant.starts_with(variant)
        };
        self.steps.keys().any(fits)
    }

    /// Fails unless there is a step of every instruction, call and refusal that the judges vouch for.
    pub fn check(&self) {
        for name in every_code().filter_map(|word| name(word).ok()) {
            assert!(self.has(Verdict::Accepted, 0, &name, ""), "no {name} under rules 0");
            // QEMU has its own system calls.
            assert!(name == "SYSCALL" || self.has(Verdict::Accepted, 1, &name, ""), "no {name} under rules 1");
        }
        for call in CALLS {
            assert!(self.has(Verdict::Accepted, 0, "SYSCALL", call), "no call {call}");
        }
        for call in WIDE_CALLS {
            assert!(self.has(WIDE, 0, "SYSCALL", call), "no wide call {call}");
        }
        for (number, rules) in [(2, 0), (3, 0), (4, 0), (5, 0), (7, 1)] {
            let refused = |class: &Class| class.rules == rules && class.variant.starts_with(&refusal(number));
            assert!(self.steps.keys().any(refused), "no step refused with {number}");
        }
        for name in ["SC", "SCD"] {
            assert!(self.has(Verdict::Accepted, 0, name, "stores nothing"), "no {name} that stores nothing");
            assert!(self.has(Verdict::Accepted, 1, name, "stores register 0"), "no {name} that stores register 0");
        }
        assert!(self.steps.keys().any(|class| class.verdict == OLD_EXITED), "no exited state");
    }
}

/// How much a step shows: whether its rd held a value of its own, which is lost or kept; how many bytes change beside
/// pc, next_pc and the step counter; and how many bytes of its operands are not zero.
fn shows(record: &StepRecord) -> Shows {
    let word = record.word();
    let (source, target) = (record.reg(rs(word)), record.reg(rt(word)));
    let rd_holds = rd(word) != 0 && ![0, source].contains(&record.reg(rd(word)));
    let counts = |at: &usize| [PC, NEXT_PC, STEP].iter().any(|field| (*field..field + 8).contains(at));
    let state = (0..STATE).filter(|at| !counts(at) && record.bytes[OLD + at] != record.bytes[NEW + at]).count();
    let eight = (0..8).filter(|at| record.bytes[OLD_EIGHT + at] != record.bytes[NEW_EIGHT + at]).count();
    let operands = source.to_be_bytes().into_iter().chain(target.to_be_bytes());
    (record.special().is_some() && rd_holds, state + eight, operands.filter(|byte| *byte != 0).count())
}

fn class(vector: &Vector, record: &StepRecord) -> Class {
    let before = &vector.case.machine;
    let (verdict, variant) = match vector.answer.expect("a read vector has an answer") {
        _ if before.state[EXITED] == 1 => (OLD_EXITED, format!("pc off by {}", before.get(PC) % 4)),
        Answer::Refused { number: number @ 2..=7 } => (STEP_REFUSED, refused_variant(record, number)),
        answer if record.is_wide() => (WIDE, format!("{}, answer {}", call_variant(record), answer.numbers().0)),
        Answer::Stepped | Answer::Exited { .. } => (Verdict::Accepted, variant(vector, record)),
        answer => panic!("{answer:?}, and not wide"),
    };
    let name = match name(record.word()) {
        _ if verdict == OLD_EXITED => String::new(),
        _ if variant == refusal(2) => String::new(),
        Ok(name) => name,
        Err((table, _)) => table.to_string(),
    };
    Class { verdict, rules: before.state[RULES], name, variant }
}

fn refusal(number: u32) -> String {
    format!("refusal {number}")
}

/// BEQL is refused like an unknown opcode, and yet has a name in isa.rs.
fn refused_variant(record: &StepRecord, number: u32) -> String {
    let beql = number == 3 && record.word() >> 26 == 0x14;
    refusal(number) + if beql { ", BEQL" } else { "" }
}

fn variant(vector: &Vector, record: &StepRecord) -> String {
    let word = record.word();
    let (before, after) = (&vector.case.machine, &vector.after);
    if vector.case.class == EXAMPLE {
        format!("example, ordinal {}", vector.ordinal)
    } else if is_load_or_store(word) {
        access_variant(record).to_string()
    } else if is_branch(word) {
        let goes_on = after.get(NEXT_PC) == before.get(NEXT_PC).wrapping_add(4);
        (if goes_on { "goes on" } else { "leads away" }).to_string()
    } else if record.call().is_some() {
        call_variant(record)
    } else {
        String::new()
    }
}

fn access_variant(record: &StepRecord) -> &'static str {
    let address = record.given_address().expect("a load or store");
    // At address 0 a touch is told from none only by its bytes.
    if record.stores_nothing() && address >= 8 {
        "stores nothing"
    } else if is_conditional(record.word()) && rt(record.word()) == 0 && record.rules() == 1 {
        "stores register 0"
    } else if record.touches_itself() {
        "touches itself"
    } else if address % 8 == 0 {
        "at offset 0"
    } else {
        "at another offset"
    }
}

/// The number counts only by its low word, so calls with an upper word are classes of their own.
fn call_variant(record: &StepRecord) -> String {
    let upper = record.reg(2) >> 32 != 0;
    call_and_descriptor(record) + if upper { ", upper word" } else { "" }
}

fn call_and_descriptor(record: &StepRecord) -> String {
    let call = record.call().expect("a system call");
    let descriptor = call.descriptor.min(7);
    match call.number {
        5001 if descriptor == 6 => format!("5001 on 6, {}", key_variant(call)),
        5000 | 5001 => format!("{} on {descriptor}", call.number),
        5009 if record.reg(4) == 0 => "5009 at the heap".to_string(),
        5009 => "5009 at a0".to_string(),
        5070 if call.a1 == 3 => format!("5070 on {descriptor}"),
        5070 => "5070 with another command".to_string(),
        5012 | 5055 | 5205 => call.number.to_string(),
        _ => "unknown".to_string(),
    }
}

/// What ends the bytes of a write to 6: its count, or the doubleword.
fn key_variant(call: Call) -> &'static str {
    match (call.a1 % 8, call.a2) {
        (_, 0) => "0 bytes",
        (0, 1..=7) => "by its count from offset 0",
        (0, _) => "8 bytes",
        (offset, a2) if a2 < 8 - offset => "by its count",
        _ => "by the doubleword",
    }
}
