//! The card calls and their judge: what reading a card into a slab and writing one from a slab answer, hand back and
//! leave, byte by byte as the request words it. Numbers are bits.

#[cfg(reference)]
pub mod bench;
pub mod capi;
pub mod compare;
pub mod damage;
pub mod faults;
pub mod generate;
#[cfg(reference)]
pub mod list;
pub mod points;
pub mod reference;

/// Bytes of a block.
pub const BLOCK: usize = 512;
/// Numbers in a data block.
pub const NUMBERS: u64 = 63;
/// Where a block's sum is; it is of the bytes before it.
pub const SUM: usize = 510;
/// The most rows and the most columns.
pub const LARGEST: u64 = 64;
/// What is written for a NaN.
pub const NAN: u64 = 0x7ff8_0000_0000_0000;

/// Which call it is. A kind is 0 for f64 and 1 for complex.
#[derive(Clone, Copy, Debug, PartialEq, Eq)]
pub enum Action {
    Read,
    Write { kind: u8, rows: u64, cols: u64 },
}

/// The words that a call hands back: the reader the first three, a writer the last.
#[derive(Clone, Copy, Debug, PartialEq, Eq)]
pub struct Handed {
    pub kind: u8,
    pub rows: u64,
    pub cols: u64,
    pub length: u64,
}

impl Handed {
    /// What stands in them before a call.
    pub const BEFORE: Handed =
        Handed { kind: 0xee, rows: 0x1111_2222_3333_4444, cols: 0x5555_6666_7777_8888, length: 0x9999_aaaa_bbbb_cccc };
}

/// A call as plain data.
#[derive(Clone, Debug, PartialEq, Eq)]
pub struct CardCall {
    pub action: Action,
    /// The file that is read, or the buffer that is written to.
    pub card: Vec<u8>,
    /// The slab's numbers, which the reader writes and a writer reads.
    pub slab: Vec<u64>,
    pub handed: Handed,
}

impl CardCall {
    pub fn read(card: Vec<u8>, slab: Vec<u64>) -> Self {
        CardCall { action: Action::Read, card, slab, handed: Handed::BEFORE }
    }

    pub fn write(kind: u8, rows: u64, cols: u64, slab: Vec<u64>, card: Vec<u8>) -> Self {
        CardCall { action: Action::Write { kind, rows, cols }, card, slab, handed: Handed::BEFORE }
    }

    /// The writer's kind; of a reading call 1 where the file's byte 8 is 1, else 0.
    pub fn kind(&self) -> u8 {
        match self.action {
            Action::Read => u8::from(self.card.get(8) == Some(&1)),
            Action::Write { kind, .. } => kind,
        }
    }

    pub fn is_reading(&self) -> bool {
        self.action == Action::Read
    }

    /// The call in one line.
    pub fn show(&self) -> String {
        let CardCall { action, card, slab, .. } = self;
        let first = if self.is_reading() { &card[..card.len().min(9)] } else { &[] };
        format!("{action:?} {first:02x?}, {} bytes of card, slab of {} numbers", card.len(), slab.len())
    }
}

/// Runs the call: the answer, and in the call what it hands back and leaves.
pub fn answer(call: &mut CardCall) -> u8 {
    match call.action {
        Action::Read => read(call),
        Action::Write { kind, rows, cols } => write(call, kind, rows, cols),
    }
}

/// How many f64 numbers a matrix has.
pub fn count(kind: u8, rows: u64, cols: u64) -> u64 {
    let parts = if kind == 1 { 2 } else { 1 };
    rows * cols * parts
}

/// How many data blocks so many numbers need.
pub fn data_blocks(count: u64) -> u64 {
    count.div_ceil(NUMBERS)
}

/// The 16-bit number in two bytes, low byte first.
fn low_first(bytes: &[u8]) -> u64 {
    u64::from(bytes[0]) + 256 * u64::from(bytes[1])
}

/// The sum that the block should have.
pub fn sum(block: &[u8]) -> u64 {
    block[..SUM].iter().map(|&byte| u64::from(byte)).sum::<u64>() % 65_536
}

fn all_zero(bytes: &[u8]) -> bool {
    bytes.iter().all(|&byte| byte == 0)
}

/// Answer 6: the length is no whole number of blocks, or some block's sum fails.
fn is_torn(card: &[u8]) -> bool {
    !card.len().is_multiple_of(BLOCK) || card.chunks(BLOCK).any(|block| low_first(&block[SUM..]) != sum(block))
}

/// Kind, rows and columns in the header.
fn header(block: &[u8]) -> (u8, u64, u64) {
    (block[8], low_first(&block[4..6]), low_first(&block[6..8]))
}

/// Answer 7: any other departure, in a file of whole blocks. The shape has no limit here.
fn is_wrong(card: &[u8]) -> bool {
    let blocks: Vec<&[u8]> = card.chunks(BLOCK).collect();
    if blocks.is_empty() {
        return true;
    }
    let first = blocks[0];
    if first[0..4] != *b"ARMM" || first[8] > 1 || !all_zero(&first[9..SUM]) {
        return true;
    }
    let (kind, rows, cols) = header(first);
    let count = count(kind, rows, cols);
    if blocks.len() as u64 != 1 + data_blocks(count) {
        return true;
    }
    (1..blocks.len()).any(|k| is_wrong_data(blocks[k], k as u64, count))
}

/// Is data block k wrong, of a matrix of so many numbers?
fn is_wrong_data(block: &[u8], k: u64, count: u64) -> bool {
    let here = (count - NUMBERS * (k - 1)).min(NUMBERS) as usize;
    !all_zero(&block[8 * here..504]) || low_first(&block[504..506]) != k || !all_zero(&block[506..SUM])
}

/// The card's n-th number.
fn number(card: &[u8], n: usize) -> u64 {
    let at = BLOCK * (1 + n / 63) + 8 * (n % 63);
    u64::from_le_bytes(card[at..at + 8].try_into().unwrap())
}

fn read(call: &mut CardCall) -> u8 {
    if is_torn(&call.card) {
        return 6;
    }
    if is_wrong(&call.card) {
        return 7;
    }
    let (kind, rows, cols) = header(&call.card);
    if rows > LARGEST || cols > LARGEST {
        return 1;
    }
    let count = count(kind, rows, cols) as usize;
    if call.slab.len() < count {
        return 2;
    }
    for n in 0..count {
        call.slab[n] = number(&call.card, n);
    }
    call.handed = Handed { kind, rows, cols, ..call.handed };
    0
}

fn write(call: &mut CardCall, kind: u8, rows: u64, cols: u64) -> u8 {
    if rows > LARGEST || cols > LARGEST {
        return 1;
    }
    let count = count(kind, rows, cols);
    let length = BLOCK as u64 * (1 + data_blocks(count));
    if (call.slab.len() as u64) < count || (call.card.len() as u64) < length {
        return 2;
    }
    let written = |&bits: &u64| if is_nan(bits) { NAN } else { bits };
    let numbers: Vec<u64> = call.slab[..count as usize].iter().map(written).collect();
    call.card[..length as usize].copy_from_slice(&card(kind, rows as u16, cols as u16, &numbers));
    call.handed = Handed { length, ..call.handed };
    0
}

pub fn is_nan(bits: u64) -> bool {
    f64::from_bits(bits).is_nan()
}

/// The card of a matrix of any shape, with these numbers as they are. A k past 65,535 loses its high part, so that
/// such a card is wrong.
pub fn card(kind: u8, rows: u16, cols: u16, numbers: &[u64]) -> Vec<u8> {
    let mut card = vec![0; BLOCK];
    card[0..4].copy_from_slice(b"ARMM");
    card[4..6].copy_from_slice(&rows.to_le_bytes());
    card[6..8].copy_from_slice(&cols.to_le_bytes());
    card[8] = kind;
    for (n, numbers) in numbers.chunks(63).enumerate() {
        let mut block = [0; BLOCK];
        for (place, bits) in block.chunks_mut(8).zip(numbers) {
            place.copy_from_slice(&bits.to_le_bytes());
        }
        block[504..506].copy_from_slice(&(n as u64 + 1).to_le_bytes()[..2]);
        card.extend(block);
    }
    card.chunks_mut(BLOCK).for_each(seal);
    card
}

/// Makes the block's sum anew.
pub fn seal(block: &mut [u8]) {
    let sum = sum(block);
    block[SUM] = (sum % 256) as u8;
    block[SUM + 1] = (sum / 256) as u8;
}
