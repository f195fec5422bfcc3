//! Accounts as comparable keys, and a small hash index over them.

use std::hash::{BuildHasherDefault, Hasher};

use crate::fields::{Number, TOP_KIND};

/// A prime near 2^64 divided by the golden ratio: its multiples spread.
const PRIME: u64 = 0x9E37_79B9_7F4A_7C55;

/// The bytes that a number has room for.
pub(crate) const NUMBER_BYTES: usize = 30;

/// Whether a number may have this byte: a visible character of ASCII, or a Cyrillic letter of windows-1251.
const fn may_name(byte: u8) -> bool {
    byte.is_ascii_graphic() || byte >= 0xC0 || byte == 0xA8 || byte == 0xB8
}

/// Whether these are 1 to 30 bytes that a number may have.
pub(crate) fn is_number(bytes: &[u8; NUMBER_BYTES], len: u64) -> bool {
    counted(bytes, len).is_some_and(|text| text.iter().all(|&byte| may_name(byte)))
}

/// The bytes that count; none where the length is out of range.
fn counted(bytes: &[u8; NUMBER_BYTES], len: u64) -> Option<&[u8]> {
    bytes.get(..usize::try_from(len).ok()?).filter(|text| !text.is_empty())
}

/// The text of a number with a type; the bytes themselves are not judged.
#[derive(Clone, Copy, Debug, PartialEq, Eq)]
pub(crate) struct AccountKey<'a> {
    text: &'a [u8],
    kind: u64,
}

impl AccountKey<'_> {
    /// The key; none where length or type are out of range.
    pub(crate) fn new(bytes: &[u8; NUMBER_BYTES], len: u64, kind: u64) -> Option<AccountKey<'_>> {
        let text = counted(bytes, len).filter(|_| kind <= TOP_KIND)?;
        Some(AccountKey { text, kind })
    }

    /// A number that spreads keys: the bytes folded by a prime.
    fn spread(&self) -> u64 {
        self.text.iter().fold(self.kind, |hash, &byte| (hash ^ u64::from(byte)).wrapping_mul(PRIME))
    }
}

/// Finds the first of equal accounts by key. Holds up to 256 accounts.
#[derive(Clone, Debug)]
pub(crate) struct Index {
    /// One more than a place in `accounts`; 0 is a free slot. At least half of the slots stay free.
    slots: [u16; Index::SLOTS],
    accounts: Vec<(Number, u64)>,
}

impl Index {
    const SLOTS: usize = 512;

    pub(crate) fn with_room(accounts: usize) -> Index {
        Index { slots: [0; Index::SLOTS], accounts: Vec::with_capacity(accounts) }
    }

    /// Adds the next account; one equal to an earlier account stays hidden behind it.
    pub(crate) fn push(&mut self, number: &Number, kind: u64) {
        let Some(key) = AccountKey::new(&number.bytes, number.len as u64, kind) else { return };
        let (slot, found) = self.seek(&key);
        self.accounts.push((*number, kind));
        if found.is_none() {
            self.slots[slot] = self.accounts.len() as u16;
        }
    }

    pub(crate) fn find(&self, key: &AccountKey) -> Option<usize> {
        self.seek(key).1
    }

    /// The slot where the search ended, and the place found there.
    fn seek(&self, key: &AccountKey) -> (usize, Option<usize>) {
        let mut slot = (key.spread() >> 55) as usize;
        loop {
            match usize::from(self.slots[slot]) {
                0 => return (slot, None),
                place if self.is_at(place - 1, key) => return (slot, Some(place - 1)),
                _ => slot = (slot + 1) % Index::SLOTS,
            }
        }
    }

    fn is_at(&self, place: usize, key: &AccountKey) -> bool {
        let (number, kind) = &self.accounts[place];
        *kind == key.kind && number.len == key.text.len() && number.bytes[..number.len] == *key.text
    }
}

/// A multiplying hasher for keys that are a word each.
#[derive(Clone, Debug, Default)]
pub(crate) struct WordHasher(u64);

pub(crate) type WordHash = BuildHasherDefault<WordHasher>;

impl Hasher for WordHasher {
    fn write(&mut self, bytes: &[u8]) {
        bytes.iter().for_each(|&byte| self.write_u64(u64::from(byte)));
    }

    fn write_u64(&mut self, word: u64) {
        self.0 = (self.0.rotate_left(5) ^ word).wrapping_mul(PRIME);
    }

    fn finish(&self) -> u64 {
        // The good bits of a product are its high ones, and a map looks at the low ones too.
        self.0.rotate_left(26)
    }
}

#[cfg(test)]
mod tests {
    use super::*;

    /// The number of a text, with other bytes behind it.
    fn number(text: &[u8]) -> Number {
        let mut bytes = [0xAA; NUMBER_BYTES];
        bytes[..text.len()].copy_from_slice(text);
        Number { bytes, len: text.len() }
    }

    /// Where an index of one account finds another.
    fn finds(account: (&[u8], u64), other: (&[u8], u64)) -> bool {
        let mut index = Index::with_room(1);
        index.push(&number(account.0), account.1);
        let Number { mut bytes, len } = number(other.0);
        bytes[len..].fill(b'-');
        index.find(&AccountKey::new(&bytes, len as u64, other.1).expect("in range")).is_some()
    }

    #[test]
    fn keys_tell_length_type_and_counted_bytes_apart_and_no_more() {
        assert!(finds((b"abc", 1), (b"abc", 1)));
        assert!(!finds((b"abc", 1), (b"abc\0", 1)));
        assert!(!finds((b"abc", 1), (b"abc", 2)));
        assert!(!finds((&[b'x'; 30], 999), (&[b'x'; 29], 999)));
        for at in 0..30 {
            let mut text = [b'x'; 30];
            text[at] = b'y';
            assert!(!finds((&text, 7), (&[b'x'; 30], 7)) && finds((&text, 7), (&text, 7)));
        }
        for (len, kind) in [(0, 1), (31, 1), (u64::MAX, 1), (1, 1000), (1, u64::MAX)] {
            assert_eq!(AccountKey::new(&[b'x'; 30], len, kind), None);
        }
    }

    #[test]
    fn numbers_are_judged_byte_by_byte() {
        for (len, at, byte) in
            (1..=30).flat_map(|len| (0..30).flat_map(move |at| (0..=255).map(move |byte| (len, at, byte))))
        {
            let mut bytes = [b'5'; 30];
            bytes[at as usize] = byte;
            let good = matches!(byte, 0x21..=0x7E | 0xA8 | 0xB8 | 0xC0..=0xFF);
            assert_eq!(is_number(&bytes, len), at >= len || good);
        }
        assert!(!is_number(&[b'5'; 30], 0) && !is_number(&[b'5'; 30], 31) && !is_number(&[b'5'; 30], u64::MAX));
    }

    #[test]
    fn the_index_gives_the_first_of_equals() {
        let mut index = Index::with_room(256);
        for n in 0..256u64 {
            index.push(&number(format!("{}", n / 2).as_bytes()), 1);
        }
        let find = |text: &str, kind| {
            let Number { bytes, len } = number(text.as_bytes());
            index.find(&AccountKey::new(&bytes, len as u64, kind).expect("in range"))
        };
        for n in 0..128usize {
            assert_eq!(find(&n.to_string(), 1), Some(2 * n));
        }
        assert_eq!(find("128", 1), None);
        assert_eq!(find("1", 2), None);
    }
}
