//! The comparison: the oracle and a candidate on the same calls, by bits, NaNs alike, every slab whole.

use crate::answer::answer;
use crate::call::{Call, Kind, Routine};

/// What a comparison found.
pub struct Report {
    /// Calls compared, by routine and kind.
    pub calls: [[u64; 3]; 15],
    /// Those of them that differ.
    pub differ: [[u64; 3]; 15],
    /// Answers that the judge gave.
    pub answers: [u64; 6],
    /// The number of the first call that differs, and how.
    pub first: Option<(u64, String)>,
}

impl Report {
    pub fn total(&self) -> u64 {
        self.calls.iter().flatten().sum()
    }

    pub fn differences(&self) -> u64 {
        self.differ.iter().flatten().sum()
    }
}

/// When two cells count as the same.
pub type Same = fn(Kind, u64, u64) -> bool;

/// Runs a call in place; no answer where the routine is not there.
pub type Run = fn(&mut Call) -> Option<u8>;

/// How two outcomes of a call differ, if they do. The slabs that are only read are compared to the
/// bit, NaNs too.
pub fn difference(same: Same, before: &Call, ours: (&Call, u8), theirs: (&Call, u8)) -> Option<String> {
    let kind = before.kind;
    if ours.1 != theirs.1 {
        return Some(format!("answers {} for {}: {}", theirs.1, ours.1, before.show()));
    }
    let read = before.slabs.len() - 1;
    if before.slabs[..read] != theirs.0.slabs[..read] {
        return Some(format!("writes a slab that is only read: {}", before.show()));
    }
    let (target, other) = (ours.0.target(), theirs.0.target());
    let same = target.len() == other.len() && target.iter().zip(other).all(|(&a, &b)| same(kind, a, b));
    let numbers = |cells: &[u64]| cells.iter().map(|&cell| kind.number(cell)).collect::<Vec<_>>();
    (!same).then(|| format!("leaves {:?} for {:?}: {}", numbers(other), numbers(target), before.show()))
}

/// Compares with the oracle, by bits.
pub fn compare(candidate: Run, calls: impl Iterator<Item = Call>) -> Report {
    against(|call| Some(answer(call)), Kind::same, candidate, calls)
}

/// Compares with a judge.
pub fn against(judge: Run, same: Same, candidate: Run, calls: impl Iterator<Item = Call>) -> Report {
    let mut report = Report { calls: [[0; 3]; 15], differ: [[0; 3]; 15], answers: [0; 6], first: None };
    for (n, before) in calls.enumerate() {
        let (mut ours, mut theirs) = (before.clone(), before.clone());
        let Some(their_answer) = candidate(&mut theirs) else { continue };
        let Some(our_answer) = judge(&mut ours) else { continue };
        let (routine, kind) = (before.routine as usize, before.kind as usize);
        report.calls[routine][kind] += 1;
        report.answers[usize::from(our_answer)] += 1;
        if let Some(found) = difference(same, &before, (&ours, our_answer), (&theirs, their_answer)) {
            report.differ[routine][kind] += 1;
            report.first.get_or_insert((n as u64, found));
        }
    }
    report
}

/// The first of the calls on which the candidate differs.
pub fn first_difference(candidate: fn(&mut Call) -> u8, calls: impl Iterator<Item = Call>) -> Option<(u64, String)> {
    calls.enumerate().find_map(|(n, before)| {
        let (mut ours, mut theirs) = (before.clone(), before.clone());
        let (our_answer, their_answer) = (answer(&mut ours), candidate(&mut theirs));
        difference(Kind::same, &before, (&ours, our_answer), (&theirs, their_answer)).map(|found| (n as u64, found))
    })
}

/// The report in lines.
pub fn show(report: &Report) -> String {
    let mut text = String::new();
    for (routine, kinds) in Routine::ALL.iter().zip(report.calls).filter(|(_, kinds)| *kinds != [0; 3]) {
        let counts: Vec<String> = Kind::ALL.iter().zip(kinds).map(|(kind, n)| format!("{n} {}", kind.name())).collect();
        text += &format!("  {:6} {}\n", routine.name(), counts.join(", "));
    }
    text += &format!("  answers 0 to 5: {:?}\n", report.answers);
    text += &format!("  {} calls compared, {} differ\n", report.total(), report.differences());
    if let Some((n, found)) = &report.first {
        text += &format!("  the first, call {n}, {found}\n");
    }
    text
}
