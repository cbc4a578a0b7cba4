//! The bytes of the fixed list, as README.md describes them.

use crate::answer::answer;
use crate::call::{Call, Factor, Kind, Routine, View};

/// The first bytes of a file; the number of records follows as a u64.
pub const MAGIC: &[u8; 8] = b"ZBLIST01";
/// The longest body of a record.
pub const LONGEST: usize = 4096;
/// Stands for the kind in a record without numbers.
pub const NO_KIND: u8 = 3;

/// A record: a call as it is before, its answer and the target's slab afterwards.
#[derive(Clone, Debug, PartialEq, Eq)]
pub struct Record {
    pub call: Call,
    pub answer: u8,
    pub after: Vec<u64>,
}

impl Record {
    /// Runs the call; NaNs are written in one form.
    pub fn of(call: Call) -> Self {
        let mut done = call.clone();
        let answer = answer(&mut done);
        let after = done.target().iter().map(|&cell| if call.kind.is_nan(cell) { nan(call.kind) } else { cell });
        Record { answer, after: after.collect(), call }
    }
}

fn nan(kind: Kind) -> u64 {
    if kind == Kind::F32 { 0x7fc0_0000 } else { 0x7ff8_0000_0000_0000 }
}

/// A check: views with their slabs' lengths in elements, and the answer, 0 to 4.
#[derive(Clone, Debug, PartialEq, Eq)]
pub struct Check {
    pub routine: Routine,
    pub flags: Vec<u8>,
    pub views: Vec<View>,
    pub lengths: Vec<u64>,
    pub answer: u8,
}

fn head(routine: Routine, kind: u8, answer: u8, flags: &[u8]) -> Vec<u8> {
    let mut bytes = vec![routine as u8, kind, answer, routine.views() as u8, 0, 0, 0, 0];
    bytes[4..4 + flags.len()].copy_from_slice(flags);
    bytes
}

fn put_view(bytes: &mut Vec<u8>, view: &View, length: u64) {
    let View { start, rows, cols, row_stride, col_stride } = *view;
    for word in [start, rows, cols, row_stride as u64, col_stride as u64, length] {
        bytes.extend(word.to_le_bytes());
    }
}

fn put_cells(bytes: &mut Vec<u8>, kind: Kind, cells: &[u64]) {
    for cell in cells {
        bytes.extend(&cell.to_le_bytes()[..if kind == Kind::F32 { 4 } else { 8 }]);
    }
}

/// The scalar's two words; parts that the routine does not take are zero.
fn words(call: &Call, factor: Factor, value: [u64; 2]) -> [u64; 2] {
    match factor {
        Factor::Nothing => [0, 0],
        Factor::Element if call.kind == Kind::Complex => value,
        _ => [value[0], 0],
    }
}

/// A record's bytes without the length before them.
pub fn body(record: &Record) -> Vec<u8> {
    let call = &record.call;
    let mut bytes = head(call.routine, call.kind as u8, record.answer, &call.flags);
    let scalars = [words(call, call.routine.alpha(), call.alpha), words(call, call.routine.beta(), call.beta)];
    for word in scalars.concat() {
        bytes.extend(word.to_le_bytes());
    }
    for (view, slab) in call.views.iter().zip(&call.slabs) {
        put_view(&mut bytes, view, slab.len() as u64);
    }
    for slab in call.slabs.iter().chain([&record.after]) {
        put_cells(&mut bytes, call.kind, slab);
    }
    bytes
}

pub fn check_body(check: &Check) -> Vec<u8> {
    let mut bytes = head(check.routine, NO_KIND, check.answer, &check.flags);
    for (view, &length) in check.views.iter().zip(&check.lengths) {
        put_view(&mut bytes, view, length);
    }
    bytes
}

/// A file with these bodies.
pub fn file(bodies: &[Vec<u8>]) -> Vec<u8> {
    let mut bytes = MAGIC.to_vec();
    bytes.extend((bodies.len() as u64).to_le_bytes());
    for body in bodies {
        assert!(body.len() <= LONGEST);
        bytes.extend((body.len() as u16).to_le_bytes());
        bytes.extend(body);
    }
    bytes
}

struct Reader<'a>(&'a [u8]);

impl Reader<'_> {
    fn take(&mut self, n: usize) -> &[u8] {
        let (taken, rest) = self.0.split_at(n);
        self.0 = rest;
        taken
    }

    fn word(&mut self) -> u64 {
        u64::from_le_bytes(self.take(8).try_into().unwrap())
    }

    fn half(&mut self) -> u64 {
        u64::from(u32::from_le_bytes(self.take(4).try_into().unwrap()))
    }

    fn view(&mut self) -> (View, u64) {
        let [start, rows, cols, row_stride, col_stride, length] = [0; 6].map(|_| self.word());
        (View { start, rows, cols, row_stride: row_stride as i64, col_stride: col_stride as i64 }, length)
    }

    fn cells(&mut self, kind: Kind, n: u64) -> Vec<u64> {
        (0..n).map(|_| if kind == Kind::F32 { self.half() } else { self.word() }).collect()
    }
}

/// The bodies of a file's records.
pub fn bodies(file: &[u8]) -> Vec<&[u8]> {
    assert_eq!(&file[..8], MAGIC);
    let count = u64::from_le_bytes(file[8..16].try_into().unwrap());
    let (mut rest, mut bodies) = (&file[16..], Vec::new());
    while let Some((length, after)) = rest.split_first_chunk::<2>() {
        let (body, after) = after.split_at(usize::from(u16::from_le_bytes(*length)));
        bodies.push(body);
        rest = after;
    }
    assert_eq!(bodies.len() as u64, count);
    bodies
}

/// What a body begins with: routine, kind's number, answer and flags.
pub fn read_head(body: &[u8]) -> (Routine, u8, u8, Vec<u8>) {
    let routine = Routine::ALL[usize::from(body[0])];
    (routine, body[1], body[2], body[4..4 + routine.flags().len()].to_vec())
}

pub fn read_record(body: &[u8]) -> Record {
    let (routine, kind, answer, flags) = read_head(body);
    let kind = Kind::ALL[usize::from(kind)];
    let mut reader = Reader(&body[8..]);
    let [alpha_re, alpha_im, beta_re, beta_im] = [0; 4].map(|_| reader.word());
    let views: Vec<(View, u64)> = (0..routine.views()).map(|_| reader.view()).collect();
    let slabs: Vec<Vec<u64>> = views.iter().map(|&(_, length)| reader.cells(kind, length)).collect();
    let after = reader.cells(kind, views.last().unwrap().1);
    assert!(reader.0.is_empty());
    let views = views.iter().map(|&(view, _)| view).collect();
    let call = Call { routine, kind, flags, alpha: [alpha_re, alpha_im], beta: [beta_re, beta_im], views, slabs };
    Record { call, answer, after }
}

pub fn read_check(body: &[u8]) -> Check {
    let (routine, _, answer, flags) = read_head(body);
    let mut reader = Reader(&body[8..]);
    let (views, lengths) = (0..routine.views()).map(|_| reader.view()).unzip();
    assert!(reader.0.is_empty());
    Check { routine, flags, views, lengths, answer }
}
