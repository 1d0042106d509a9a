//! The words of a case: numbers, lists, and bytes, read and written.

use std::fmt::Write;

/// No more places, values or codes are lent or given than this.
const MOST_PLACES: usize = 256;
/// No more bytes are lent or given than this.
const MOST_BYTES: usize = 65_537;
/// So many equal bytes are shorter as a run.
const LEAST_RUN: usize = 4;

/// Digits alone: Rust would take a sign too.
pub fn number(word: &str) -> Option<u32> {
    word.parse().ok().filter(|_| word.bytes().all(|sign| sign.is_ascii_digit()))
}

pub fn places(word: &str) -> Option<usize> {
    number(word).map(|places| places as usize).filter(|&places| places <= MOST_PLACES)
}

pub fn output(word: &str) -> Option<usize> {
    number(word).map(|bytes| bytes as usize).filter(|&bytes| bytes <= MOST_BYTES)
}

pub fn list(word: &str) -> Option<Vec<u32>> {
    let numbers: Option<Vec<u32>> = if word == "-" { Some(vec![]) } else { word.split(',').map(number).collect() };
    numbers.filter(|numbers| numbers.len() <= MOST_PLACES)
}

fn pairs(word: &str) -> Option<Vec<u8>> {
    let digits: Option<Vec<u32>> = word.chars().map(|sign| sign.to_digit(16)).collect();
    let digits = digits.filter(|digits| !digits.is_empty() && digits.len() % 2 == 0)?;
    Some(digits.chunks(2).map(|pair| (pair[0] * 16 + pair[1]) as u8).collect())
}

/// Pairs of digits, or how often pairs come and the pairs: `16*AA`.
fn piece(word: &str) -> Option<Vec<u8>> {
    match word.split_once('*') {
        None => pairs(word),
        Some((count, repeated)) => Some(pairs(repeated)?.repeat(output(count).filter(|&count| count > 0)?)),
    }
}

pub fn bytes(word: &str) -> Option<Vec<u8>> {
    let pieces: Option<Vec<Vec<u8>>> = if word == "-" { Some(vec![]) } else { word.split(',').map(piece).collect() };
    pieces.map(|pieces| pieces.concat()).filter(|bytes| bytes.len() <= MOST_BYTES)
}

pub fn put_list(text: &mut String, values: &[u32]) {
    for (place, value) in values.iter().enumerate() {
        let comma = if place == 0 { "" } else { "," };
        write!(text, "{comma}{value}").expect("a string takes all");
    }
}

pub fn put_digits(text: &mut String, bytes: &[u8]) {
    for byte in bytes {
        for digit in [byte >> 4, byte & 15] {
            text.push(char::from(b"0123456789ABCDEF"[usize::from(digit)]));
        }
    }
}

/// Bytes in a call: what repeats is written once.
pub fn put_bytes(text: &mut String, bytes: &[u8]) {
    let (mut at, mut after_digits) = (0, false);
    while at < bytes.len() {
        let equal = bytes[at..].iter().take_while(|&&byte| byte == bytes[at]).count();
        let repeats = equal >= LEAST_RUN;
        if at > 0 && !(after_digits && !repeats) {
            text.push(',');
        }
        if repeats {
            write!(text, "{equal}*").expect("a string takes all");
        }
        put_digits(text, &bytes[at..at + if repeats { 1 } else { equal }]);
        after_digits = !repeats;
        at += equal;
    }
}
