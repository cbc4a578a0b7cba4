//! The comparison of card calls: the judge and a candidate on the same calls, all lent memory looked at whole.

use super::{CardCall, answer, count, is_nan};

/// Runs a call in place; no answer where the function is not there.
pub type Run = fn(&mut CardCall) -> Option<u8>;

pub const NAMES: [[&str; 2]; 2] = [["read f64", "read complex"], ["write f64", "write complex"]];
/// The answers of card calls.
pub const ANSWERS: [u8; 5] = [0, 1, 2, 6, 7];

/// What a comparison found.
pub struct Report {
    /// Calls compared, reading and writing, by kind.
    pub calls: [[u64; 2]; 2],
    /// Those of them that differ.
    pub differ: u64,
    /// How often the judge gave each answer, reading and writing.
    pub answers: [[u64; 8]; 2],
    /// The number of the first call that differs, and how.
    pub first: Option<(u64, String)>,
}

impl Report {
    pub fn total(&self) -> u64 {
        self.calls.iter().flatten().sum()
    }
}

/// How two outcomes of a call differ, if they do. Numbers that were read from the card are compared with NaNs alike,
/// everything else to the bit.
pub fn difference(before: &CardCall, ours: (&CardCall, u8), theirs: (&CardCall, u8)) -> Option<String> {
    let (judged, given) = (ours.0, theirs.0);
    let read = if before.is_reading() && ours.1 == 0 {
        count(judged.handed.kind, judged.handed.rows, judged.handed.cols) as usize
    } else {
        0
    };
    let same = |n: usize, a: u64, b: u64| a == b || (n < read && is_nan(a) && is_nan(b));
    let pairs = || judged.slab.iter().zip(&given.slab).enumerate();
    let found = if ours.1 != theirs.1 {
        format!("answers {} for {}", theirs.1, ours.1)
    } else if judged.handed != given.handed {
        format!("hands back {:x?} for {:x?}", given.handed, judged.handed)
    } else if judged.slab.len() != given.slab.len() || judged.card.len() != given.card.len() {
        "changes a length".to_string()
    } else if let Some((n, (a, b))) = pairs().find(|&(n, (&a, &b))| !same(n, a, b)) {
        format!("leaves {b:016x} for {a:016x} as number {n} of the slab")
    } else if let Some(n) = (0..judged.card.len()).find(|&n| judged.card[n] != given.card[n]) {
        format!("leaves {:02x} for {:02x} as byte {n} of the card", given.card[n], judged.card[n])
    } else {
        return None;
    };
    Some(format!("{found}: {}", before.show()))
}

/// Compares with the judge.
pub fn compare(candidate: Run, calls: impl Iterator<Item = CardCall>) -> Report {
    let mut report = Report { calls: [[0; 2]; 2], differ: 0, answers: [[0; 8]; 2], first: None };
    for (n, before) in calls.enumerate() {
        let (mut ours, mut theirs) = (before.clone(), before.clone());
        let Some(their_answer) = candidate(&mut theirs) else { continue };
        let our_answer = answer(&mut ours);
        let way = usize::from(!before.is_reading());
        report.calls[way][usize::from(before.kind())] += 1;
        report.answers[way][usize::from(our_answer)] += 1;
        if let Some(found) = difference(&before, (&ours, our_answer), (&theirs, their_answer)) {
            report.differ += 1;
            report.first.get_or_insert((n as u64, found));
        }
    }
    report
}

/// The first of the calls on which the candidate differs.
pub fn first_difference(
    candidate: impl Fn(&mut CardCall) -> u8,
    calls: impl Iterator<Item = CardCall>,
) -> Option<(u64, String)> {
    calls.enumerate().find_map(|(n, before)| {
        let (mut ours, mut theirs) = (before.clone(), before.clone());
        let (our_answer, their_answer) = (answer(&mut ours), candidate(&mut theirs));
        difference(&before, (&ours, our_answer), (&theirs, their_answer)).map(|found| (n as u64, found))
    })
}

/// The report in lines.
pub fn show(report: &Report) -> String {
    let mut text = String::new();
    for (way, name) in ["reading", "writing"].into_iter().enumerate() {
        let [real, complex] = report.calls[way];
        let answers = ANSWERS.map(|answer| report.answers[way][usize::from(answer)]);
        let total = real + complex;
        text +=
            &format!("  {name}: {total} calls, {real} f64, {complex} complex; answers 0, 1, 2, 6, 7: {answers:?}\n");
    }
    text += &format!("  {} calls compared, {} differ\n", report.total(), report.differ);
    if let Some((n, found)) = &report.first {
        text += &format!("  the first, call {n}, {found}\n");
    }
    text
}
