//! Written dates and calendar days of the years 2000 to 2099.

/// A written date, `YYYY-MM-DDThh:mm:ss`.
pub type Date = [u8; 19];

/// What stands in place of a date that a record does not have.
pub(crate) const NO_DATE: Date = [0; 19];

/// How many day numbers there are; see [`day_number`].
pub(crate) const DAY_NUMBERS: usize = 100 * 12 * 31;

/// A calendar day. A value of this type need not be a real day.
#[derive(Clone, Copy, Debug, PartialEq, Eq, PartialOrd, Ord, Hash)]
pub struct Day {
    /// The year, 2000 to 2099 in a real day.
    pub year: u16,
    /// The month, from 1.
    pub month: u8,
    /// The day of the month, from 1.
    pub day: u8,
}

impl Day {
    /// The day of these three figures, taken as they are.
    pub const fn new(year: u16, month: u8, day: u8) -> Day {
        Day { year, month, day }
    }

    /// Whether the calendar has this day.
    pub fn is_real(self) -> bool {
        (2000..=2099).contains(&self.year) && self.day >= 1 && self.day <= month_days(self.year, self.month)
    }

    /// The day after a real one; none after the last of 2099.
    pub fn day_after(self) -> Option<Day> {
        if self.day < month_days(self.year, self.month) {
            return Some(Day::new(self.year, self.month, self.day + 1));
        }
        match (self.year, self.month) {
            (year, month) if month < 12 => Some(Day::new(year, month + 1, 1)),
            (year, _) if year < 2099 => Some(Day::new(year + 1, 1, 1)),
            _ => None,
        }
    }

    /// The day as a number that orders like the day and compares with [`date_key`].
    pub(crate) fn key(self) -> u64 {
        // Figures past two digits spill into bytes above '9', which keeps the order of unreal days too.
        let [yy, mm, dd] = [(self.year % 100) as u8, self.month, self.day];
        let tens = |n: u8| b'0' + n / 10;
        let ones = |n: u8| b'0' + n % 10;
        match self.year {
            0..2000 => 0,
            2000..=2099 => u64::from_be_bytes([tens(yy), ones(yy), b'-', tens(mm), ones(mm), b'-', tens(dd), ones(dd)]),
            _ => u64::MAX,
        }
    }
}

fn month_days(year: u16, month: u8) -> u8 {
    const DAYS: [u8; 13] = [0, 31, 28, 31, 30, 31, 30, 31, 31, 30, 31, 30, 31];
    // Between 2000 and 2099 every fourth year leaps.
    let leap = month == 2 && year % 4 == 0;
    DAYS.get(usize::from(month)).map_or(0, |days| days + u8::from(leap))
}

/// The day of a good date as a number: the eight bytes of `YY-MM-DD` in order of weight.
#[inline]
pub(crate) fn date_key(date: &Date) -> u64 {
    u64::from_be_bytes(eight(date, 2))
}

/// Whether the bytes are a real date with a real time.
#[inline]
pub(crate) fn is_date(date: &Date) -> bool {
    day_number(date).is_some()
}

/// A small number for the day of a date, equal for equal days and below [`DAY_NUMBERS`]; none where it is no date.
pub(crate) fn day_number(date: &Date) -> Option<usize> {
    let marks = [date[4], date[7], date[10], date[13], date[16]];
    if marks != *b"--T::" || two(date, 0)? != 20 || two(date, 11)? > 23 || two(date, 14)? > 59 || two(date, 17)? > 59 {
        return None;
    }
    let (year, month, day) = (two(date, 2)?, two(date, 5)?, two(date, 8)?);
    let real = (1..=month_days(u16::from(year), month)).contains(&day);
    real.then(|| (usize::from(year) * 12 + usize::from(month) - 1) * 31 + usize::from(day) - 1)
}

/// The value of the two digits from this place on.
fn two(text: &[u8], from: usize) -> Option<u8> {
    let digit = |at: usize| text[at].is_ascii_digit().then(|| text[at] - b'0');
    Some(digit(from)? * 10 + digit(from + 1)?)
}

/// The real day that stands alone as `YYYY-MM-DD`.
pub(crate) fn read_day(text: &[u8]) -> Option<Day> {
    if text.len() != 10 || text[4] != b'-' || text[7] != b'-' || two(text, 0)? != 20 {
        return None;
    }
    Some(Day::new(2000 + u16::from(two(text, 2)?), two(text, 5)?, two(text, 8)?)).filter(|day| day.is_real())
}

fn eight(date: &Date, from: usize) -> [u8; 8] {
    let mut bytes = [0; 8];
    bytes.copy_from_slice(&date[from..from + 8]);
    bytes
}

#[cfg(test)]
mod tests {
    use super::*;

    fn plain(date: &Date) -> bool {
        let digits = |from: usize, to: usize| -> Option<u32> {
            let text = &date[from..to];
            text.iter().all(u8::is_ascii_digit).then(|| text.iter().fold(0, |n, b| n * 10 + u32::from(b - b'0')))
        };
        let marks = [(4, b'-'), (7, b'-'), (10, b'T'), (13, b':'), (16, b':')];
        let parts = [(0, 4), (5, 7), (8, 10), (11, 13), (14, 16), (17, 19)].map(|(from, to)| digits(from, to));
        let [Some(y), Some(m), Some(d), Some(h), Some(min), Some(s)] = parts else { return false };
        let day = Day::new(y as u16, m as u8, d as u8);
        marks.iter().all(|&(at, mark)| date[at] == mark) && day.is_real() && h < 24 && min < 60 && s < 60
    }

    #[test]
    fn every_byte_in_every_place_is_judged_as_by_plain_reading() {
        for base in [b"2005-09-20T15:53:00", b"2024-02-29T23:59:59", b"2099-12-31T00:00:00", b"2000-10-30T19:09:49"] {
            assert!(is_date(base));
            for (at, byte) in (0..19).flat_map(|at| (0..=255u8).map(move |byte| (at, byte))) {
                let mut date = *base;
                date[at] = byte;
                assert_eq!(is_date(&date), plain(&date), "{date:?}");
            }
        }
    }

    #[test]
    fn month_ends_and_leap_years() {
        for (text, good) in [("2024-02-29", true), ("2023-02-29", false), ("2000-02-29", true), ("2005-04-31", false)] {
            let mut date = *b"2000-00-00T00:00:00";
            date[..10].copy_from_slice(text.as_bytes());
            assert_eq!(is_date(&date), good, "{text}");
        }
        assert_eq!(Day::new(2024, 2, 28).day_after(), Some(Day::new(2024, 2, 29)));
        assert_eq!(Day::new(2023, 2, 28).day_after(), Some(Day::new(2023, 3, 1)));
        assert_eq!(Day::new(2005, 12, 31).day_after(), Some(Day::new(2006, 1, 1)));
        assert_eq!(Day::new(2099, 12, 31).day_after(), None);
    }

    #[test]
    fn all_days_follow_each_other_in_keys_and_numbers() {
        let (mut day, mut last) = (Day::new(2000, 1, 1), None);
        loop {
            let date: Date = format!("{:04}-{:02}-{:02}T00:00:00", day.year, day.month, day.day)
                .into_bytes()
                .try_into()
                .expect("nineteen bytes");
            let number = day_number(&date).expect("a date");
            assert!(last < Some(number) && number < DAY_NUMBERS && day.key() == date_key(&date));
            last = Some(number);
            let Some(next) = day.day_after() else { break };
            assert!(next.key() > day.key());
            day = next;
        }
        assert_eq!(day, Day::new(2099, 12, 31));
    }

    #[test]
    fn unreal_days_neither_pass_nor_panic() {
        for day in [Day::new(0, 0, 0), Day::new(65535, 255, 255), Day::new(2005, 13, 1), Day::new(2005, 9, 31)] {
            assert!(!day.is_real());
            let _ = (day.day_after(), day.key());
        }
    }
}
