//! Fields: numbers (I), codes, names (N) and blanks (X).

/// The widest number field has six columns (RULES 3.2); eight leave room.
const WIDEST: usize = 8;

/// The one spelling of a number in a field of this width: right aligned, spaces in front.
/// None if the number does not fit.
pub fn spelled(number: i32, width: usize) -> Option<[u8; WIDEST]> {
    let mut spelling = [b' '; WIDEST];
    let mut left = number.unsigned_abs();
    let mut place = width;
    loop {
        place = place.checked_sub(1)?;
        spelling[place] = b'0' + (left % 10) as u8;
        left /= 10;
        if left == 0 {
            break;
        }
    }
    if number < 0 {
        place = place.checked_sub(1)?;
        spelling[place] = b'-';
    }
    Some(spelling)
}

/// The number that a field holds, or None if the field is ill formed.
/// Every number has one spelling. So we guess the number and compare the spelling.
pub fn number(field: &[u8]) -> Option<i32> {
    if field.is_empty() || field.len() > WIDEST {
        return None;
    }
    let guess = guessed(field);
    let spelling = spelled(guess, field.len())?;
    (spelling[..field.len()] == *field).then_some(guess)
}

/// A code has five columns.
pub const CODE: usize = 5;

/// The spelling of land that has mark 1.
pub const LAND: [u8; CODE] = *b" 0000";

/// The one spelling of a code with its mark, in a record with this layer code (RULES 3.6). None if they have none.
pub fn code_spelled(code: i32, mark: u32, layer: Option<i32>) -> Option<[u8; WIDEST]> {
    match (mark, code, layer) {
        (0, ..) => spelled(code, CODE),
        (1, 0, Some(5)) => {
            let mut spelling = [b' '; WIDEST];
            spelling[..CODE].copy_from_slice(&LAND);
            Some(spelling)
        }
        _ => None,
    }
}

/// The code that a field holds, and its mark, or None if the field is ill formed.
/// We guess both and compare the spelling.
pub fn code(field: &[u8], layer: Option<i32>) -> Option<(i32, u32)> {
    let guess = guessed(field);
    let is_spelled = |mark: &u32| code_spelled(guess, *mark, layer).is_some_and(|spelling| spelling[..CODE] == *field);
    [0, 1].into_iter().find(is_spelled).map(|mark| (guess, mark))
}

/// A guess: all digits in a row, below 0 if a "-" stands anywhere.
fn guessed(field: &[u8]) -> i32 {
    let digits = field.iter().filter(|byte| byte.is_ascii_digit());
    let size = digits.fold(0, |sum, digit| sum * 10 + i32::from(digit - b'0'));
    if field.contains(&b'-') {
        -size
    } else {
        size
    }
}

/// A name is a row of two-byte characters.
pub fn is_name(field: &[u8]) -> bool {
    field.len() % 2 == 0 && field.chunks(2).all(|pair| is_lead(pair[0]) && is_trail(pair[1]))
}

fn is_lead(byte: u8) -> bool {
    matches!(byte, 0x81..=0x9F | 0xE0..=0xFC)
}

fn is_trail(byte: u8) -> bool {
    matches!(byte, 0x40..=0x7E | 0x80..=0xFC)
}

/// A blank field is all spaces.
pub fn is_blank(field: &[u8]) -> bool {
    field.iter().all(|byte| *byte == b' ')
}
