//! A record as text that can be read and turned back into bytes: a line for each field, with its name and then its bytes
//! in hexadecimal, in the record's order.

use super::record::{StepRecord, NEW, OLD};

/// The name of each field of a record and how many bytes it has.
pub fn fields() -> Vec<(String, usize)> {
    let mut fields = Vec::new();
    for state in ["old", "new"] {
        let numbers = ["pc", "next_pc", "hi", "lo", "heap", "step", "offset", "hint"].map(str::to_string);
        let eights = (0..32).map(|i| format!("r{i}")).chain(numbers).map(|name| (name, 8));
        let others = [("key", 32), ("exited", 1), ("code", 1), ("rules", 1), ("zeros", 5)];
        let all = eights.chain(others.map(|(name, length)| (name.to_string(), length)));
        fields.extend(all.map(|(name, length)| (format!("{state} {name}"), length)));
    }
    let rest = [("instruction", 4), ("zeros", 4), ("address", 8), ("old eight", 8), ("new eight", 8)];
    fields.extend(rest.map(|(name, length)| (name.to_string(), length)));
    fields
}

pub fn hex(bytes: &[u8]) -> String {
    bytes.iter().map(|byte| format!("{byte:02x}")).collect()
}

pub fn text(record: &StepRecord) -> String {
    let mut at = 0;
    let line = |(name, length): (String, usize)| {
        at += length;
        format!("{name:12} {}\n", hex(&record.bytes[at - length..at]))
    };
    fields().into_iter().map(line).collect()
}

/// The fields of the new state in which two records differ, but for the rules, with what each has there.
pub fn parted(one: &StepRecord, other: &StepRecord) -> Vec<(String, String, String)> {
    let mut at = OLD;
    let mut parted = Vec::new();
    for (name, length) in fields() {
        let (a, b) = (&one.bytes[at..at + length], &other.bytes[at..at + length]);
        if at >= NEW && a != b && name != "new rules" {
            parted.push((name, hex(a), hex(b)));
        }
        at += length;
    }
    parted
}
