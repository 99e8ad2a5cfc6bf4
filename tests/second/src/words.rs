//! Reading eight bytes of a file at a time, for the parts written for speed.

/// The eight bytes at a place, the first one highest, where so many are left.
#[inline(always)]
pub fn word_at(file: &[u8], at: usize) -> Option<u64> {
    let bytes = file.get(at..)?.first_chunk()?;
    Some(u64::from_be_bytes(*bytes))
}

/// The tag and the body length of the field that begins the word.
#[inline(always)]
pub fn header(word: u64) -> u64 {
    word >> 40
}

/// The value of the field that begins the word, if its body has four bytes.
#[inline(always)]
pub fn value(word: u64) -> u32 {
    (word >> 8) as u32
}

/// The bit of the field that begins the word, if its body has one byte.
#[inline(always)]
pub fn bit(word: u64) -> u32 {
    (word >> 32) as u32 & 0xFF
}
