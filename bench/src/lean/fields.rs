//! Fields: numbers (I), names (N) and blanks (X). Columns count from 1, and both ends of a field are named.

/// A record has 74 bytes.
pub const RECORD: usize = 74;

pub type Record = [u8; RECORD];

/// A broken rule of one record: its number and its column.
#[derive(Clone, Copy)]
pub struct Fault {
    pub number: u32,
    pub column: u32,
}

pub type Kept<T> = Result<T, Fault>;

/// A broken rule. This is seldom met.
#[cold]
fn fault<T>(number: u32, column: usize) -> Kept<T> {
    Err(Fault { number, column: column as u32 })
}

/// A rule at a column: broken, it gives this number.
#[inline(always)]
pub fn rule(number: u32, column: usize, kept: bool) -> Kept<()> {
    if kept {
        Ok(())
    } else {
        fault(number, column)
    }
}

/// A value is permitted.
#[inline(always)]
pub fn permit(column: usize, kept: bool) -> Kept<()> {
    rule(6, column, kept)
}

/// A record is in step.
#[inline(always)]
pub fn in_step(column: usize, kept: bool) -> Kept<()> {
    rule(8, column, kept)
}

const SPACES: u64 = 0x2020_2020_2020_2020;
const ZEROS: u64 = 0x3030_3030_3030_3030;

/// The number of a field, at most eight columns wide and starting at column 67 at the latest.
/// Its columns stand in one word, the last one on top, spaces below.
#[inline(always)]
pub fn number(record: &Record, start: usize, end: usize) -> Kept<i32> {
    let unused = 8 * (7 - (end - start)) as u32;
    let eight: [u8; 8] = record[start - 1..start + 7].try_into().expect("eight bytes");
    let field = u64::from_le_bytes(eight) << unused | SPACES & ((1 << unused) - 1);
    let blanks = (field ^ SPACES).trailing_zeros() & 56;
    let digits = (field ^ ZEROS) & u64::MAX << blanks;
    let leading_zero = (digits >> blanks) as u8 == 0 && blanks != 56;
    if all_digits(digits) && !leading_zero {
        return Ok(value_of(digits));
    }
    match below_zero(field, blanks) {
        Some(number) => Ok(number),
        None => fault(5, start),
    }
}

/// The code of a field of five columns, and its mark: " 0000" is 0 with mark 1 in a record of layer 5.
#[inline(always)]
pub fn code(record: &Record, start: usize) -> Kept<(i32, u32)> {
    match number(record, start, start + 4) {
        Ok(code) => Ok((code, 0)),
        Err(_) if &record[start - 1..start + 4] == b" 0000" && &record[2..4] == b" 5" => Ok((0, 1)),
        Err(fault) => Err(fault),
    }
}

/// A number below 0: spaces, "-", and digits without a leading zero.
#[inline]
fn below_zero(field: u64, blanks: u32) -> Option<i32> {
    if (field >> blanks) as u8 != b'-' || blanks == 56 {
        return None;
    }
    let first = blanks + 8;
    let digits = (field ^ ZEROS) & u64::MAX << first;
    let leading_zero = (digits >> first) as u8 == 0;
    (all_digits(digits) && !leading_zero).then(|| -value_of(digits))
}

/// Every byte is 0 to 9.
#[inline(always)]
fn all_digits(digits: u64) -> bool {
    (digits.wrapping_add(0x7676_7676_7676_7676) | digits) & 0x8080_8080_8080_8080 == 0
}

/// The number of eight digits, the first one lowest: pairs, then fours, then all eight.
#[inline(always)]
fn value_of(digits: u64) -> i32 {
    let pairs = (digits.wrapping_mul(10) + (digits >> 8)) & 0x00FF_00FF_00FF_00FF;
    let fours = (pairs.wrapping_mul(100) + (pairs >> 16)) & 0x0000_FFFF_0000_FFFF;
    (fours.wrapping_mul(10_000) + (fours >> 32)) as u32 as i32
}

/// A name is a row of two-byte characters.
#[inline(always)]
pub fn name(record: &Record, start: usize, end: usize) -> Kept<()> {
    let mut kept = true;
    for pair in record[start - 1..end].chunks_exact(2) {
        let lead = matches!(pair[0], 0x81..=0x9F | 0xE0..=0xFC);
        let trail = matches!(pair[1], 0x40..=0x7E | 0x80..=0xFC);
        kept &= lead & trail;
    }
    rule(5, start, kept)
}

/// A blank field is all spaces.
#[inline(always)]
pub fn blank(record: &Record, start: usize, end: usize) -> Kept<()> {
    let mut others = 0;
    for byte in &record[start - 1..end] {
        others |= byte ^ b' ';
    }
    rule(5, start, others == 0)
}

/// The type letters, in columns 1 and 2.
#[inline(always)]
pub fn letters(record: &Record, letters: &[u8; 2]) -> Kept<()> {
    rule(3, 1, record[..2] == *letters)
}

/// The letters of an H: 1 for H1, 2 for H2.
#[inline(always)]
pub fn head_letters(record: &Record) -> Kept<u32> {
    match &record[..2] {
        b"H2" => Ok(2),
        b"H1" => Ok(1),
        _ => fault(3, 1),
    }
}
