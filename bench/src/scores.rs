//! Score texts (document 02, a): a reader and a writer, written from documents 01 and 02 alone, and the
//! examples that both are held to.

use crate::reference::refuse_if;

/// The most hundredths of a score and of a total, on either side of zero.
pub const SCORE_LIMIT: i64 = 1_000_000;
pub const TOTAL_LIMIT: i64 = 64_000_000;
/// The bytes of the longest text that is written.
pub const LONGEST: usize = b"-640000.00".len();
/// The most digits before the point of a text that is read.
const DIGITS: usize = 5;

/// The score that a text stands for, in hundredths.
pub fn read(text: &[u8]) -> Result<i64, u8> {
    let digits = text.strip_prefix(b"-").unwrap_or(text);
    let Some((whole, &[b'.', tenths, hundredths])) = digits.split_last_chunk() else {
        return Err(23);
    };
    let idle_zero = whole.len() > 1 && whole[0] == b'0';
    refuse_if(whole.is_empty() || whole.len() > DIGITS || idle_zero, 23)?;
    let mut number = 0;
    for &digit in whole.iter().chain(&[tenths, hundredths]) {
        refuse_if(!digit.is_ascii_digit(), 23)?;
        number = 10 * number + (digit - b'0') as i64;
    }
    let minus = digits.len() < text.len();
    refuse_if(number > SCORE_LIMIT || minus && number == 0, 23)?;
    Ok(if minus { -number } else { number })
}

/// Writes a score or a total and answers the length of its text.
pub fn write(number: i64, out: &mut [u8]) -> Result<usize, u8> {
    refuse_if(is_beyond(number, TOTAL_LIMIT), 11)?;
    let mut text = [0; LONGEST];
    let mut from = LONGEST;
    let mut rest = number.unsigned_abs() as u32;
    // From the right: two digits, the point, one digit at least, the minus.
    while from > LONGEST - 4 || rest > 0 {
        from -= 1;
        if from == LONGEST - 3 {
            text[from] = b'.';
        } else {
            text[from] = b'0' + (rest % 10) as u8;
            rest /= 10;
        }
    }
    if number < 0 {
        from -= 1;
        text[from] = b'-';
    }
    let text = &text[from..];
    out.get_mut(..text.len()).ok_or(22)?.copy_from_slice(text);
    Ok(text.len())
}

pub fn is_beyond(number: i64, limit: i64) -> bool {
    number.unsigned_abs() > limit as u64
}

/// What the writer would write of any number, as the request says it.
pub fn spelled(number: i64) -> String {
    let minus = if number < 0 { "-" } else { "" };
    let size = number.unsigned_abs();
    format!("{minus}{}.{:02}", size / 100, size % 100)
}

/// Texts with what reading them answers.
pub fn read_examples() -> Vec<(Vec<u8>, Result<i64, u8>)> {
    let long = ["1".repeat(300), "0".repeat(300), "0".repeat(297) + ".00"];
    let accepted = ACCEPTED.map(|(text, number)| (text.into(), Ok(number)));
    let refused = REFUSED.map(|text| (text.into(), Err(23)));
    let long = long.map(|text| (text.into(), Err(23)));
    accepted.into_iter().chain(refused).chain(long).collect()
}

const ACCEPTED: [(&str, i64); 10] = [
    ("0.00", 0),
    ("0.01", 1),
    ("-0.01", -1),
    ("0.05", 5),
    ("-0.50", -50),
    ("4.32", 432),
    ("10.00", 1_000),
    ("9999.99", 999_999),
    ("10000.00", 1_000_000),
    ("-10000.00", -1_000_000),
];

const REFUSED: [&str; 29] = [
    // Idle zeros, and a minus before nothing.
    "-0.00",
    "00.10",
    "-00.10",
    "01.00",
    // Too few or too many digits or points.
    "",
    "-",
    ".",
    ".50",
    "-.50",
    "1",
    "100",
    "1.",
    "1.5",
    "1.500",
    "1.0.0",
    "1..00",
    // Beyond the bounds.
    "10000.01",
    "-10000.01",
    "99999.99",
    "640000.00",
    // Other bytes.
    "+1.00",
    "--1.00",
    "1,00",
    " 1.00",
    "1.00 ",
    "1.00\n",
    "1.00\0",
    "1.0a",
    "1e.00",
];

/// Numbers with the texts that are written of them.
pub const WRITTEN_EXAMPLES: [(i64, Result<&str, u8>); 12] = [
    (0, Ok("0.00")),
    (5, Ok("0.05")),
    (-50, Ok("-0.50")),
    (432, Ok("4.32")),
    (1_000_000, Ok("10000.00")),
    (-1_000_000, Ok("-10000.00")),
    (64_000_000, Ok("640000.00")),
    (-64_000_000, Ok("-640000.00")),
    (64_000_001, Err(11)),
    (-64_000_001, Err(11)),
    (i64::MAX, Err(11)),
    (i64::MIN, Err(11)),
];
