//! What the readers of both files share: classes of bytes, identifiers, canonical numbers, and a fast table of texts.

use std::collections::{HashMap, HashSet};
use std::hash::{BuildHasherDefault, Hasher};

const SPACE: u8 = 1;
const NAME_START: u8 = 2;
const NAME: u8 = 4;
const LETTER: u8 = 8;
const DIGIT: u8 = 16;

const CLASSES: [u8; 256] = classes();

const fn classes() -> [u8; 256] {
    let mut table = [0; 256];
    let mut byte = 0;
    while byte < 256 {
        table[byte] = match byte as u8 {
            b' ' | b'\t' | b'\r' | b'\n' => SPACE,
            b'a'..=b'z' | b'A'..=b'Z' | b'_' => NAME_START | NAME | LETTER,
            b'0'..=b'9' => NAME | DIGIT,
            b'-' | b'.' | b':' => NAME,
            128..=255 => NAME_START | NAME,
            _ => 0,
        };
        byte += 1;
    }
    table
}

/// Blank, tab, carriage return and line feed.
pub fn is_space(byte: u8) -> bool {
    CLASSES[byte as usize] & SPACE != 0
}

/// Whether the name of a mark or an attribute may begin so.
pub fn is_name_start(byte: u8) -> bool {
    CLASSES[byte as usize] & NAME_START != 0
}

/// Whether the name of a mark or an attribute may go on so.
pub fn is_name_byte(byte: u8) -> bool {
    CLASSES[byte as usize] & NAME != 0
}

/// An ASCII letter or `_`.
pub fn is_letter(byte: u8) -> bool {
    CLASSES[byte as usize] & LETTER != 0
}

/// An ASCII letter, `_` or a digit.
pub fn is_word_byte(byte: u8) -> bool {
    CLASSES[byte as usize] & (LETTER | DIGIT) != 0
}

/// Whether a mark or an attribute can have this name.
pub fn is_mark_name(name: &[u8]) -> bool {
    matches!(name, [first, rest @ ..] if is_name_start(*first) && rest.iter().all(|&it| is_name_byte(it)))
}

/// A letter or `_`, and then letters, digits and `_`, all ASCII.
pub fn is_identifier(name: &[u8]) -> bool {
    matches!(name, [first, rest @ ..] if is_letter(*first) && rest.iter().all(|&it| is_word_byte(it)))
}

/// The first place of a byte from here on. It looks at eight bytes at a time.
pub fn find(bytes: &[u8], from: usize, byte: u8) -> Option<usize> {
    const ONES: u64 = 0x0101_0101_0101_0101;
    let wanted = ONES * u64::from(byte);
    let mut words = bytes.get(from..)?.chunks_exact(8);
    let mut at = from;
    for word in &mut words {
        let word = u64::from_le_bytes(word.try_into().unwrap_or_default()) ^ wanted;
        // The lowest byte that is 0 has its highest bit set here, and those below it have not.
        let zeros = word.wrapping_sub(ONES) & !word & (ONES << 7);
        if zeros != 0 {
            return Some(at + zeros.trailing_zeros() as usize / 8);
        }
        at += 8;
    }
    words.remainder().iter().position(|&it| it == byte).map(|it| at + it)
}

/// A number in its canonical spelling.
#[derive(Clone, Copy, PartialEq)]
pub enum Canonical {
    /// It fits 64 bits with a sign.
    Fits(i64),
    /// It does not.
    TooWide,
}

/// The number that a text spells canonically: `0`, or an optional minus and digits of which the first is not 0.
pub fn canonical(text: &[u8]) -> Option<Canonical> {
    let (is_negative, digits) = match text {
        b"0" => return Some(Canonical::Fits(0)),
        [b'-', digits @ ..] => (true, digits),
        _ => (false, text),
    };
    if !matches!(digits.first(), Some(b'1'..=b'9')) || !digits.iter().all(u8::is_ascii_digit) {
        return None;
    }
    // The absolute value of the least number is one more than that of the greatest, so digits are taken off zero.
    let mut number = 0i64;
    for digit in digits {
        let digit = i64::from(digit - b'0');
        match number.checked_mul(10).and_then(|it| it.checked_sub(digit)) {
            Some(next) => number = next,
            None => return Some(Canonical::TooWide),
        }
    }
    Some(match (is_negative, number.checked_neg()) {
        (true, _) => Canonical::Fits(number),
        (false, Some(number)) => Canonical::Fits(number),
        (false, None) => Canonical::TooWide,
    })
}

/// A hash of few instructions: eight bytes at a time, multiplied.
#[derive(Default)]
pub struct Mixer(u64);

impl Mixer {
    fn mix(&mut self, word: u64) {
        self.0 = (self.0.rotate_left(5) ^ word).wrapping_mul(0x9E37_79B9_7F4A_7C15);
    }
}

impl Hasher for Mixer {
    fn write(&mut self, bytes: &[u8]) {
        let mut words = bytes.chunks_exact(8);
        for word in &mut words {
            self.mix(u64::from_le_bytes(word.try_into().unwrap_or_default()));
        }
        let rest = words.remainder();
        if !rest.is_empty() {
            let mut word = 0;
            for &byte in rest {
                word = word << 8 | u64::from(byte);
            }
            self.mix(word ^ (rest.len() as u64) << 56);
        }
    }

    fn write_u8(&mut self, n: u8) {
        self.mix(u64::from(n));
    }

    fn write_u32(&mut self, n: u32) {
        self.mix(u64::from(n));
    }

    fn write_usize(&mut self, n: usize) {
        self.mix(n as u64);
    }

    fn finish(&self) -> u64 {
        self.0 ^ self.0 >> 29
    }
}

/// A map with the fast hash.
pub type Map<K, V> = HashMap<K, V, BuildHasherDefault<Mixer>>;
/// A set with the fast hash.
pub type Set<K> = HashSet<K, BuildHasherDefault<Mixer>>;

/// Whether all are different. Few are compared each with each, many go through a set.
pub fn are_different<T: Eq + std::hash::Hash>(items: impl ExactSizeIterator<Item = T> + Clone) -> bool {
    if items.len() > 12 {
        let mut seen = Set::with_capacity_and_hasher(items.len(), Default::default());
        return items.into_iter().all(|it| seen.insert(it));
    }
    let mut rest = items;
    while let Some(first) = rest.next() {
        if rest.clone().any(|it| it == first) {
            return false;
        }
    }
    true
}
