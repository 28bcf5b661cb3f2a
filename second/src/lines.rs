//! A file as lines of upper-case hexadecimal pairs.

use crate::rules::Lines;

const END: u8 = 0x0A;

/// Reads every line through `form`; else the place of the first line of wrong form, or of the
/// line that is one too many.
pub fn read<T>(
    file: &[u8],
    limit: usize,
    rules: &Lines,
    form: impl Fn(&[u8]) -> Option<T>,
) -> Result<Vec<T>, usize> {
    let mut read = Vec::new();
    for (place, line) in file.split_inclusive(|&byte| byte == END).enumerate() {
        let formed = pairs(line, rules).and_then(|bytes| form(&bytes));
        match formed {
            Some(formed) if place < limit => read.push(formed),
            _ => return Err(place),
        }
    }
    Ok(read)
}

/// The bytes that a line's pairs stand for.
fn pairs(line: &[u8], rules: &Lines) -> Option<Vec<u8>> {
    let digits = match line.strip_suffix(&[END]) {
        Some(digits) => digits,
        None if rules.last_line_may_lack_its_end => line,
        None => return None,
    };
    if digits.is_empty() || digits.len() % 2 == 1 {
        return None;
    }
    digits
        .chunks(2)
        .map(|pair| Some(digit(pair[0], rules)? << 4 | digit(pair[1], rules)?))
        .collect()
}

fn digit(byte: u8, rules: &Lines) -> Option<u8> {
    match byte {
        b'0'..=b'9' => Some(byte - b'0'),
        b'A'..=b'F' => Some(byte - b'A' + 10),
        b'a'..=b'f' if rules.lower_case_digits => Some(byte - b'a' + 10),
        _ => None,
    }
}

/// Writes bytes as one line.
pub fn write(bytes: &[u8]) -> Vec<u8> {
    const DIGITS: &[u8; 16] = b"0123456789ABCDEF";
    let mut line = Vec::with_capacity(2 * bytes.len() + 1);
    for &byte in bytes {
        line.push(DIGITS[usize::from(byte >> 4)]);
        line.push(DIGITS[usize::from(byte & 0x0F)]);
    }
    line.push(END);
    line
}
