//! Planted faults of card calls: a second reader and writer, which hold a file against the card formed anew from its
//! numbers. Each fault is one slip of them, for the comparison to find; without a slip they do what the judge does.

use super::{Action, BLOCK, CardCall, Handed, NAN, SUM, is_nan};
use Slip::*;

#[derive(Clone, Copy, Debug, PartialEq, Eq)]
pub enum Slip {
    Nothing,
    WrongBeforeTorn,
    BlockByBlock,
    LargeBeforeWrong,
    ShortBeforeLarge,
    LowestFirst,
    LengthIsWrong,
    EmptyIsTorn,
    NeededSumsOnly,
    SumHighFirst,
    SumStops,
    ExtraBlock,
    CountSixteenBits,
    KFromZero,
    KWraps,
    LettersUnread,
    KindAboveOne,
    HeaderRestUnread,
    DataRestUnread,
    PastUnread,
    MinusZeroPast,
    NotDoubled,
    SixtyTwo,
    ByColumns,
    PartsApart,
    HighByteFirst,
    SixtyFourRefused,
    EmptyLarge,
    OddSlab,
    SlabBeforeLast,
    SlabCleared,
    BufferCleared,
    BufferExact,
    OldBytes,
    NanBits,
    HandedOnRefusal,
}

pub struct Fault {
    pub name: &'static str,
    pub slip: Slip,
}

const fn fault(name: &'static str, slip: Slip) -> Fault {
    Fault { name, slip }
}

pub const FAULTS: [Fault; 34] = [
    fault("7 judged before 6", WrongBeforeTorn),
    fault("6 and 7 judged block by block", BlockByBlock),
    fault("1 judged before 7", LargeBeforeWrong),
    fault("2 judged before 1", ShortBeforeLarge),
    fault("the lowest answer first", LowestFirst),
    fault("a part of a block answers 7", LengthIsWrong),
    fault("an empty file answers 6", EmptyIsTorn),
    fault("the sums of the needed blocks alone judged", NeededSumsOnly),
    fault("the sum high byte first", SumHighFirst),
    fault("the sum stops at 65,535", SumStops),
    fault("an extra block accepted", ExtraBlock),
    fault("the numbers counted modulo 65,536", CountSixteenBits),
    fault("k from 0", KFromZero),
    fault("the letters unread", LettersUnread),
    fault("a kind above 1 taken for complex", KindAboveOne),
    fault("the header's rest unread", HeaderRestUnread),
    fault("bytes 506 to 509 unread", DataRestUnread),
    fault("numbers past the matrix unread", PastUnread),
    fault("-0 accepted past the matrix", MinusZeroPast),
    fault("complex size not doubled", NotDoubled),
    fault("62 numbers a block", SixtyTwo),
    fault("numbers by columns", ByColumns),
    fault("real parts, then imaginary parts", PartsApart),
    fault("numbers high byte first", HighByteFirst),
    fault("64 rows or columns refused", SixtyFourRefused),
    fault("an empty matrix of any size accepted", EmptyLarge),
    fault("half an element taken for a whole one", OddSlab),
    fault("the slab written before the last block is judged", SlabBeforeLast),
    fault("the slab cleared past the matrix", SlabCleared),
    fault("the buffer cleared past the card", BufferCleared),
    fault("a longer buffer refused", BufferExact),
    fault("the writer leaves old bytes in a block", OldBytes),
    fault("a NaN written by its bits", NanBits),
    fault("words handed back on refusals", HandedOnRefusal),
];

/// It shows in a file of 34 MB alone.
pub const K_WRAPS: Fault = fault("k modulo 65,536", KWraps);

/// Runs the call with the slip.
pub fn answer(slip: Slip, call: &mut CardCall) -> u8 {
    let shape = match call.action {
        Action::Read => head(&call.card),
        Action::Write { kind, rows, cols } => Shape { kind, rows, cols },
    };
    let given = order(slip).into_iter().find(|&refusal| meets(slip, refusal, call, shape)).unwrap_or(0);
    let reading = call.is_reading();
    if given == 0 || slip == HandedOnRefusal {
        let Shape { kind, rows, cols } = shape;
        call.handed = match reading {
            true => Handed { kind, rows, cols, ..call.handed },
            false => Handed { length: length(slip, shape), ..call.handed },
        };
    }
    match (reading, given) {
        (true, 0) => store(slip, call, shape, u64::MAX),
        (true, 6 | 7) if slip == SlabBeforeLast => store_early(call, shape),
        (false, 0) => put_card(slip, call, shape),
        _ => {}
    }
    given
}

/// The refusals in the order in which they are judged.
fn order(slip: Slip) -> [u8; 4] {
    match slip {
        WrongBeforeTorn => [7, 6, 1, 2],
        LargeBeforeWrong => [6, 1, 7, 2],
        ShortBeforeLarge => [6, 7, 2, 1],
        LowestFirst => [1, 2, 6, 7],
        _ => [6, 7, 1, 2],
    }
}

fn meets(slip: Slip, refusal: u8, call: &CardCall, shape: Shape) -> bool {
    let file = &call.card;
    match refusal {
        1 => {
            let limit = if slip == SixtyFourRefused { 63 } else { 64 };
            let large = shape.rows > limit || shape.cols > limit;
            large && !(slip == EmptyLarge && shape.rows.min(shape.cols) == 0)
        }
        2 => is_short(slip, call, shape),
        6 if call.is_reading() => {
            let torn = first_torn(slip, file);
            let wrong = first_departure(slip, file).unwrap_or(usize::MAX);
            torn.is_some_and(|block| slip != BlockByBlock || block <= wrong)
        }
        7 => call.is_reading() && (is_part(file) && slip == LengthIsWrong || first_departure(slip, file).is_some()),
        _ => false,
    }
}

fn is_short(slip: Slip, call: &CardCall, shape: Shape) -> bool {
    let mut numbers = call.slab.len() as u64;
    if slip == OddSlab && shape.kind == 1 {
        numbers = numbers.next_multiple_of(2);
    }
    let (buffer, needed) = (call.card.len() as u64, length(slip, shape));
    let buffer_fits = if slip == BufferExact { buffer == needed } else { buffer >= needed };
    numbers < count(slip, shape) || !(call.is_reading() || buffer_fits)
}

#[derive(Clone, Copy)]
struct Shape {
    kind: u8,
    rows: u64,
    cols: u64,
}

/// The header's shape; bytes that are not there count as 0.
fn head(file: &[u8]) -> Shape {
    let byte = |at: usize| u64::from(file.get(at).copied().unwrap_or(0));
    let size = |at: usize| byte(at) | byte(at + 1) << 8;
    Shape { kind: byte(8) as u8, rows: size(4), cols: size(6) }
}

fn count(slip: Slip, Shape { kind, rows, cols }: Shape) -> u64 {
    let doubled = kind > 0 && slip != NotDoubled;
    let count = rows.saturating_mul(cols).saturating_mul(1 + u64::from(doubled));
    if slip == CountSixteenBits { count & 0xffff } else { count }
}

/// Numbers in a block.
fn per_block(slip: Slip) -> u64 {
    if slip == SixtyTwo { 62 } else { 63 }
}

/// The card's length in bytes.
fn length(slip: Slip, shape: Shape) -> u64 {
    (1 + count(slip, shape).div_ceil(per_block(slip))).saturating_mul(BLOCK as u64)
}

fn is_part(file: &[u8]) -> bool {
    !file.len().is_multiple_of(BLOCK)
}

fn sum(slip: Slip, block: &[u8]) -> [u8; 2] {
    let sum = block[..SUM].iter().fold(0, |sum, &byte| sum + u32::from(byte));
    let sum = if slip == SumStops { sum.min(0xffff) as u16 } else { sum as u16 };
    if slip == SumHighFirst { sum.to_be_bytes() } else { sum.to_le_bytes() }
}

/// The first torn block.
fn first_torn(slip: Slip, file: &[u8]) -> Option<usize> {
    let judged = if slip == NeededSumsOnly { length(slip, head(file)) } else { u64::MAX };
    let judged = judged.min(file.len() as u64) as usize;
    let torn = file[..judged].chunks_exact(BLOCK).position(|block| block[SUM..] != sum(slip, block));
    let part = is_part(file) && slip != LengthIsWrong;
    let empty = file.is_empty() && slip == EmptyIsTorn;
    torn.or((part || empty).then_some(file.len() / BLOCK))
}

/// The first block that is not as it is formed anew; the header where the number of blocks is wrong.
fn first_departure(slip: Slip, file: &[u8]) -> Option<usize> {
    let (shape, blocks) = (head(file), (file.len() / BLOCK) as u64);
    let needed = length(slip, shape) / BLOCK as u64;
    let enough = blocks == needed || (slip == ExtraBlock && blocks > needed);
    if !enough || (shape.kind > 1 && slip != KindAboveOne) {
        return Some(0);
    }
    let formed = form(slip, shape, &numbers(slip, file, shape));
    let large = |at: usize| at / BLOCK > 65_535 && slip != KWraps;
    (0..formed.len())
        .find(|&at| is_judged(slip, shape, file, at) && (large(at) || file[at] != formed[at]))
        .map(|at| at / BLOCK)
}

/// Is the byte held against the one formed anew? The sums never are.
fn is_judged(slip: Slip, shape: Shape, file: &[u8], at: usize) -> bool {
    let (block, byte) = (at / BLOCK, at % BLOCK);
    let past = || is_past(slip, shape, at);
    let unread = match slip {
        LettersUnread => at < 4,
        HeaderRestUnread => block == 0 && byte > 8,
        DataRestUnread => block > 0 && byte > 505,
        PastUnread => past(),
        MinusZeroPast => byte % 8 == 7 && file[at] == 0x80 && past(),
        _ => false,
    };
    byte < SUM && !unread
}

/// Is the byte one of a number past the matrix?
fn is_past(slip: Slip, shape: Shape, at: usize) -> bool {
    let (block, place) = ((at / BLOCK) as u64, (at % BLOCK / 8) as u64);
    block > 0 && place < 63 && (block - 1) * per_block(slip) + place >= count(slip, shape)
}

/// The file's numbers in their order; those that are not there count as 0.
fn numbers(slip: Slip, file: &[u8], shape: Shape) -> Vec<u64> {
    let per = per_block(slip);
    let number = |n: u64| {
        let at = BLOCK * (1 + n / per) as usize + 8 * (n % per) as usize;
        let bytes = file.get(at..at + 8).map_or([0; 8], |bytes| bytes.try_into().unwrap());
        if slip == HighByteFirst { u64::from_be_bytes(bytes) } else { u64::from_le_bytes(bytes) }
    };
    (0..count(slip, shape)).map(number).collect()
}

/// The card with these numbers in their order.
fn form(slip: Slip, shape: Shape, numbers: &[u64]) -> Vec<u8> {
    let mut file = vec![0; length(slip, shape) as usize];
    file[..4].copy_from_slice(b"ARMM");
    file[4..6].copy_from_slice(&(shape.rows as u16).to_le_bytes());
    file[6..8].copy_from_slice(&(shape.cols as u16).to_le_bytes());
    file[8] = shape.kind;
    let per = per_block(slip) as usize;
    for (n, bits) in numbers.iter().enumerate() {
        let at = BLOCK * (1 + n / per) + 8 * (n % per);
        let bytes = if slip == HighByteFirst { bits.to_be_bytes() } else { bits.to_le_bytes() };
        file[at..at + 8].copy_from_slice(&bytes);
    }
    for (k, block) in file.chunks_exact_mut(BLOCK).enumerate() {
        if k > 0 {
            let k = if slip == KFromZero { k - 1 } else { k };
            block[504..506].copy_from_slice(&(k as u16).to_le_bytes());
        }
        let sum = sum(slip, block);
        block[SUM..].copy_from_slice(&sum);
    }
    file
}

/// Where in the slab the card's n-th number belongs.
fn place(slip: Slip, Shape { kind, rows, cols }: Shape, n: u64) -> u64 {
    let width = 1 + u64::from(kind > 0);
    match slip {
        ByColumns => {
            let (part, element) = (n % width, n / width);
            (element % rows * cols + element / rows) * width + part
        }
        PartsApart if kind > 0 => n % (rows * cols) * 2 + n / (rows * cols),
        _ => n,
    }
}

/// Puts the first numbers of the file, `most` at most, into the slab.
fn store(slip: Slip, call: &mut CardCall, shape: Shape, most: u64) {
    if slip == SlabCleared {
        call.slab.fill(0);
    }
    for (n, bits) in (0..most).zip(numbers(slip, &call.card, shape)) {
        if let Some(number) = call.slab.get_mut(place(slip, shape, n) as usize) {
            *number = bits;
        }
    }
}

/// Puts the numbers before the last block into the slab, where everything before that block is right.
fn store_early(call: &mut CardCall, shape: Shape) {
    let blocks = call.card.len().div_ceil(BLOCK);
    let fits = shape.rows.max(shape.cols) <= 64 && count(Nothing, shape) <= call.slab.len() as u64;
    if shape.kind > 1 || !fits || length(Nothing, shape) != (BLOCK * blocks) as u64 || blocks < 3 {
        return;
    }
    let formed = form(Nothing, shape, &numbers(Nothing, &call.card, shape));
    let last = BLOCK * (blocks - 1);
    if formed[..last] == call.card[..last] {
        store(Nothing, call, shape, 63 * (blocks as u64 - 2));
    }
}

/// Writes the card.
fn put_card(slip: Slip, call: &mut CardCall, shape: Shape) {
    let number = |n: u64| {
        let bits = call.slab.get(place(slip, shape, n) as usize).copied().unwrap_or(0);
        if is_nan(bits) && slip != NanBits { NAN } else { bits }
    };
    let numbers: Vec<u64> = (0..count(slip, shape)).map(number).collect();
    let formed = form(slip, shape, &numbers);
    if slip == BufferCleared {
        call.card.fill(0);
    }
    for (at, &byte) in formed.iter().enumerate() {
        if slip != OldBytes || !is_past(slip, shape, at) {
            call.card[at] = byte;
        }
    }
}
