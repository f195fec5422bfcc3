//! The fields that requests, registry lines and books have in common, and their ranges.

use crate::index::{self, NUMBER_BYTES};

pub(crate) const TOP_RECEIPT: u64 = 999_999_999_999_999;
pub(crate) const TOP_KOPECKS: u64 = 999_999_999;
pub(crate) const TOP_KIND: u64 = 999;
/// The type of a request that names none.
pub(crate) const USUAL_KIND: u64 = 1;

/// A subscriber's number. Bytes past `len` carry no meaning; a value need not be a good number.
#[derive(Clone, Copy, Debug)]
pub struct Number {
    /// The bytes, of which the first `len` count.
    pub bytes: [u8; 30],
    /// How many bytes count, 1 to 30 in a good number.
    pub len: usize,
}

impl Number {
    /// The number written in this text, if it is a good one.
    pub fn read(text: &[u8]) -> Option<Number> {
        let mut number = Number { bytes: [0; NUMBER_BYTES], len: text.len() };
        number.bytes.get_mut(..text.len())?.copy_from_slice(text);
        number.is_good().then_some(number)
    }

    /// Whether it has 1 to 30 bytes, all of them such as a number may have.
    pub(crate) fn is_good(&self) -> bool {
        index::is_number(&self.bytes, self.len as u64)
    }
}

pub(crate) fn is_receipt(receipt: u64) -> bool {
    (1..=TOP_RECEIPT).contains(&receipt)
}

pub(crate) fn is_kopecks(kopecks: u64) -> bool {
    (1..=TOP_KOPECKS).contains(&kopecks)
}

pub(crate) fn is_reason(reason: u64) -> bool {
    (1..=5).contains(&reason)
}

/// The value of 1 to `most` digits; `most` is at most 15.
#[inline]
pub(crate) fn read_digits(text: &[u8], most: usize) -> Option<u64> {
    if text.is_empty() || text.len() > most {
        return None;
    }
    text.iter().try_fold(0, |value, byte| match byte.wrapping_sub(b'0') {
        digit @ 0..=9 => Some(value * 10 + u64::from(digit)),
        _ => None,
    })
}

pub(crate) fn read_receipt(text: &[u8]) -> Option<u64> {
    read_digits(text, 15).filter(|&receipt| receipt != 0)
}

pub(crate) fn read_kind(text: &[u8]) -> Option<u64> {
    read_digits(text, 3)
}

pub(crate) fn read_reason(text: &[u8]) -> Option<u64> {
    read_digits(text, 1).filter(|&reason| is_reason(reason))
}

/// Number and type, where both are well formed.
pub(crate) fn read_account(number: &[u8], kind: &[u8]) -> Option<(Number, u64)> {
    Some((Number::read(number)?, read_kind(kind)?))
}

/// The kopecks of a sum in roubles.
pub(crate) fn read_amount(text: &[u8]) -> Option<u64> {
    let point = text[..text.len().min(8)].iter().position(|&byte| byte == b'.');
    let roubles = read_digits(&text[..point.unwrap_or(text.len())], 7)?;
    let kopecks = match point.map(|at| &text[at + 1..]) {
        None => 0,
        Some(decimals) => read_digits(decimals, 2)? * if decimals.len() == 1 { 10 } else { 1 },
    };
    Some(roubles * 100 + kopecks).filter(|&sum| sum != 0)
}

#[cfg(test)]
mod tests {
    use super::*;

    #[test]
    fn amounts() {
        let good: [(&[u8], u64); 7] = [
            (b"10.12", 1012),
            (b"9999999.99", 999_999_999),
            (b"0.01", 1),
            (b"7.5", 750),
            (b"7", 700),
            (b"0000007", 700),
            (b"0000000.10", 10),
        ];
        for (text, kopecks) in good {
            assert_eq!(read_amount(text), Some(kopecks), "{text:?}");
        }
        let bad: [&[u8]; 12] =
            [b"", b".", b".5", b"0", b"0.00", b"10.", b"10.125", b"10000000", b"1,5", b"1.5.", b"-1", b"12345678.1"];
        for text in bad {
            assert_eq!(read_amount(text), None, "{text:?}");
        }
    }

    #[test]
    fn receipts_kinds_and_reasons() {
        assert_eq!(read_receipt(b"999999999999999"), Some(TOP_RECEIPT));
        assert_eq!(read_receipt(b"000000000000001"), Some(1));
        for text in [&b"0"[..], b"", b"1000000000000000", b"12a", b" 1", b"000000000000000"] {
            assert_eq!(read_receipt(text), None, "{text:?}");
        }
        assert_eq!((read_kind(b"000"), read_kind(b"999"), read_kind(b"01")), (Some(0), Some(999), Some(1)));
        assert_eq!((read_kind(b""), read_kind(b"0001")), (None, None));
        assert_eq!(
            (read_reason(b"5"), read_reason(b"6"), read_reason(b"0"), read_reason(b"01")),
            (Some(5), None, None, None)
        );
    }

    #[test]
    fn numbers() {
        let number = Number::read(b"account12").expect("good");
        assert_eq!((number.len, &number.bytes[..10]), (9, &b"account12\0"[..]));
        assert!(Number::read(&[b'~'; 30]).is_some() && Number::read(&[b'!'; 1]).is_some());
        for text in [&b""[..], &[b'1'; 31], b"a b", b"a\x7f", b"\x80", b"a\0"] {
            assert!(Number::read(text).is_none(), "{text:?}");
        }
        assert!(!Number { bytes: [b'1'; 30], len: usize::MAX }.is_good());
        assert!(Number { bytes: *b"ab\0\xff  abcdefghijklmnopqrstuvwx", len: 2 }.is_good());
    }
}
