//! Counting by answer, and by why a case lies outside the compared domain.

use crate::{answer::Answer, rust::Verdict};

#[derive(Default)]
pub struct Tally {
    seen: Vec<(Verdict, u64)>,
}

impl Tally {
    pub fn count(&mut self, verdict: Verdict) {
        let kind = kind(verdict);
        match self.seen.iter_mut().find(|(old, _)| *old == kind) {
            Some((_, times)) => *times += 1,
            None => self.seen.push((kind, 1)),
        }
    }

    pub fn inside(&self) -> u64 {
        self.seen.iter().filter(|(kind, _)| matches!(kind, Verdict::Inside(_))).map(|(_, times)| times).sum()
    }

    pub fn all(&self) -> u64 {
        self.seen.iter().map(|(_, times)| times).sum()
    }

    pub fn print(&self) {
        let mut lines: Vec<_> = self.seen.iter().map(|(kind, times)| format!("{times:12}  {}", name(*kind))).collect();
        lines.sort_by_key(|line| line[14..].to_string());
        println!("{}", lines.join("\n"));
    }
}

/// The verdict without the numbers that are different every time.
fn kind(verdict: Verdict) -> Verdict {
    match verdict {
        Verdict::Inside(Answer::Wrote { stream, .. }) => Verdict::Inside(Answer::Wrote { stream, count: 0 }),
        Verdict::Inside(Answer::Hint { .. }) => Verdict::Inside(Answer::Hint { count: 0 }),
        Verdict::Inside(Answer::Exited { .. }) => Verdict::Inside(Answer::Exited { code: 0 }),
        other => other,
    }
}

fn name(kind: Verdict) -> String {
    match kind {
        Verdict::Outside(why) => format!("outside the compared domain: {why}"),
        Verdict::Inside(Answer::Refused { number }) => format!("Refused with {number}"),
        Verdict::Inside(Answer::Wrote { stream, .. }) => format!("Wrote to {stream}"),
        Verdict::Inside(Answer::Stepped) => "Stepped".to_string(),
        Verdict::Inside(Answer::Hint { .. }) => "Hint".to_string(),
        Verdict::Inside(Answer::Exited { .. }) => "Exited".to_string(),
    }
}
