//! Bit fields, checksum and scrambler, each applied to one bit after the other.

/// The greatest number of so many bits, 1 to 32.
#[inline]
pub fn greatest(width: usize) -> u32 {
    ((1u64 << width) - 1) as u32
}

/// A field of 32 bits takes every value, so the comparison is made in 64.
#[inline]
pub fn fits(value: u32, width: usize) -> bool {
    u64::from(value) < 1 << width
}

/// Bits go most significant first (01, "From antenna order to bytes").
#[inline]
fn bit(bytes: &[u8], place: usize) -> u32 {
    u32::from(bytes[place / 8] >> (7 - place % 8)) & 1
}

#[inline]
fn set_bit(bytes: &mut [u8], place: usize, bit: u32) {
    let mask = 0x80 >> (place % 8);
    let byte = &mut bytes[place / 8];
    *byte = if bit == 1 { *byte | mask } else { *byte & !mask };
}

/// Whether there is such a field: one bit or more, no wider than a number, and wholly inside.
#[inline]
fn is_field(bytes: &[u8], start: usize, width: usize) -> bool {
    1 <= width && width <= 32 && start + width <= 8 * bytes.len()
}

/// The number in a field; 0 where there is no such field.
#[inline]
pub fn field(bytes: &[u8], start: usize, width: usize) -> u32 {
    if !is_field(bytes, start, width) { return 0; }
    (start..start + width).fold(0, |value, place| value << 1 | bit(bytes, place))
}

/// Puts the low bits of the value in a field; changes nothing where there is no such field.
#[inline]
pub fn replace(bytes: &mut [u8], start: usize, width: usize, value: u32) {
    if !is_field(bytes, start, width) { return; }
    for step in 0..width {
        set_bit(bytes, start + step, value >> (width - 1 - step) & 1);
    }
}

/// CRC-CCITT-FALSE (01, "Checksum").
#[inline]
pub fn checksum(bytes: &[u8]) -> u16 {
    let mut sum = 0xFFFF;
    for &byte in bytes {
        for place in (0..8).rev() {
            let carry = sum >> 15 ^ u16::from(byte >> place & 1);
            sum = (sum << 1) ^ (carry * 0x1021);
        }
    }
    sum
}

/// Whether a scrambler can look back at both distances, the near one and the far one.
#[inline]
fn is_pair(near: usize, far: usize) -> bool {
    1 <= near && near < far && far <= 32
}

/// The sent bit `near` places earlier, xor the one `far` places earlier; the lowest bit of `sent` is 1 place earlier.
#[inline]
fn taps(near: usize, far: usize, sent: u32) -> u32 {
    (sent >> (near - 1) ^ sent >> (far - 1)) & 1
}

/// The last `far` sent bits as a number, the earliest of them highest.
#[inline]
fn remembered(far: usize, sent: u32) -> u32 {
    sent & greatest(far)
}

/// Scrambles in place (01, "Scrambler"). `start` has the sent bits before the first in its low `far` bits, the earliest highest,
/// and the answer those after the last. Distances that are no pair change nothing. Both directions remember the sent bits (01,
/// "Where students slip").
#[inline]
pub fn scramble(near: usize, far: usize, start: u32, bytes: &mut [u8]) -> u32 {
    if !is_pair(near, far) { return start; }
    let mut sent = start;
    for byte in bytes {
        let data = *byte;
        for place in (0..8).rev() {
            sent = sent << 1 | (u32::from(data >> place) & 1 ^ taps(near, far, sent));
        }
        *byte = sent as u8;
    }
    remembered(far, sent)
}

/// The inverse, with the same start and the same answer.
#[inline]
pub fn unscramble(near: usize, far: usize, start: u32, bytes: &mut [u8]) -> u32 {
    if !is_pair(near, far) { return start; }
    let mut sent = start;
    for byte in bytes {
        let mut data = 0;
        for place in (0..8).rev() {
            let received = u32::from(*byte >> place) & 1;
            data = data << 1 | (received ^ taps(near, far, sent));
            sent = sent << 1 | received;
        }
        *byte = data as u8;
    }
    remembered(far, sent)
}
