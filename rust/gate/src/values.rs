//! Numbers, days and dates.
use crate::{Day, Number};
use std::error::Error;
use std::fmt;
use std::str::FromStr;

/// A written date, `YYYY-MM-DDThh:mm:ss`: a byte string of nineteen, as `b"2005-09-20T15:53:00"`.
pub type Date = [u8; 19];

/// A text that is no account's number.
#[derive(Clone, Copy, Debug, PartialEq, Eq)]
pub struct NotANumber;

impl fmt::Display for NotANumber {
    fn fmt(&self, f: &mut fmt::Formatter<'_>) -> fmt::Result {
        f.write_str("give a number of 1 to 30 bytes, each from ! to ~ or a letter of windows-1251")
    }
}

impl Error for NotANumber {}

/// What a byte of a number stands for in windows-1251; none where a number may not have it.
const fn letter(byte: u8) -> Option<char> {
    match byte {
        b'!'..=b'~' => Some(byte as char),
        0xA8 => Some('Ё'),
        0xB8 => Some('ё'),
        0xC0..=0xFF => char::from_u32('А' as u32 + (byte - 0xC0) as u32),
        _ => None,
    }
}

impl Number {
    /// The number of these bytes.
    ///
    /// # Errors
    /// Where they are none or more than thirty, or one is neither from `!` to `~` nor a letter of windows-1251 (`А` to
    /// `я`, `Ё`, `ё`).
    pub fn new(text: &[u8]) -> Result<Number, NotANumber> {
        if text.is_empty() || text.len() > 30 || !text.iter().all(|&byte| letter(byte).is_some()) {
            return Err(NotANumber);
        }
        let mut bytes = [0; 30];
        bytes[..text.len()].copy_from_slice(text);
        Ok(Number { bytes, len: text.len() })
    }

    /// The bytes that count.
    pub fn as_bytes(&self) -> &[u8] {
        &self.bytes[..self.len.min(self.bytes.len())]
    }
}

/// The number that these characters are in windows-1251.
impl FromStr for Number {
    type Err = NotANumber;

    fn from_str(text: &str) -> Result<Number, NotANumber> {
        let byte = |sign: char| (0..=u8::MAX).find(|&byte| letter(byte) == Some(sign)).ok_or(NotANumber);
        Number::new(&text.chars().map(byte).collect::<Result<Vec<u8>, NotANumber>>()?)
    }
}

impl fmt::Display for Number {
    fn fmt(&self, f: &mut fmt::Formatter<'_>) -> fmt::Result {
        let sign = |&byte| letter(byte).unwrap_or(char::REPLACEMENT_CHARACTER);
        f.pad(&self.as_bytes().iter().map(sign).collect::<String>())
    }
}

impl Day {
    /// A day by its year, month and day; calls refuse what is none.
    pub const fn new(year: u16, month: u8, day: u8) -> Day {
        Day { year, month, day }
    }

    /// The day of a written date, if digits stand where a date has its day; whether there is such a day is for the
    /// calls to say.
    pub fn of(date: &Date) -> Option<Day> {
        let two = |at: usize| {
            let digits = [date[at], date[at + 1]];
            digits.iter().all(u8::is_ascii_digit).then(|| 10 * (digits[0] - b'0') + (digits[1] - b'0'))
        };
        Some(Day { year: 100 * u16::from(two(0)?) + u16::from(two(2)?), month: two(5)?, day: two(8)? })
    }
}

impl fmt::Display for Day {
    fn fmt(&self, f: &mut fmt::Formatter<'_>) -> fmt::Result {
        write!(f, "{:04}-{:02}-{:02}", self.year, self.month, self.day)
    }
}

#[cfg(test)]
mod tests {
    use super::*;

    #[test]
    fn numbers() {
        assert_eq!("account12".parse::<Number>().unwrap().as_bytes(), b"account12");
        assert_eq!("account12".parse::<Number>().unwrap().to_string(), "account12");
        assert!("~".repeat(30).parse::<Number>().is_ok());
        for text in ["", "a b", "\u{e9}", "\x7f", "©", "Є", "Ѓ", &"1".repeat(31), &"Я".repeat(31)] {
            assert_eq!(text.parse::<Number>(), Err(NotANumber), "{text:?}");
        }
    }

    #[test]
    fn letters_of_windows_1251() {
        let choir: Number = "Хор-Ёё-АЯая".parse().unwrap();
        assert_eq!(choir.as_bytes(), b"\xD5\xEE\xF0-\xA8\xB8-\xC0\xDF\xE0\xFF");
        assert_eq!(choir.to_string(), "Хор-Ёё-АЯая");
        for byte in 0..=u8::MAX {
            let good = matches!(byte, 0x21..=0x7E | 0xA8 | 0xB8 | 0xC0..=0xFF);
            assert_eq!(Number::new(&[byte]).is_ok(), good, "{byte:02X}");
        }
        // two bytes a letter in UTF-8, of which some pass
        assert!(Number::new("Хор".as_bytes()).is_err() && Number::new("ши".as_bytes()).is_err());
        assert_eq!(Number::new("и".as_bytes()).unwrap().to_string(), "Рё");
    }

    #[test]
    fn bytes_past_the_length_do_not_count() {
        let number: Number = "a1".parse().unwrap();
        let mut other = number;
        other.bytes[29] = 7;
        assert_eq!(number, other);
        other.len = 31;
        assert_ne!(number, other);
        assert_eq!(other.as_bytes().len(), 30);
    }

    #[test]
    fn days() {
        assert_eq!(Day::new(2005, 9, 3).to_string(), "2005-09-03");
        assert_eq!(Day::of(b"2005-09-03T00:00:00"), Some(Day::new(2005, 9, 3)));
        assert_eq!(Day::of(&[0; 19]), None);
        assert_eq!(Day::of(b"2005-+9-03T00:00:00"), None);
        assert!(Day::new(2005, 9, 30) < Day::new(2005, 10, 1));
    }
}
