//! The entries of a book: their soundness and how one is found and read.

use crate::book::{Head, Rows};
use crate::date::{self, DAY_NUMBERS, Day};
use crate::fields::{self, Number, TOP_KIND, TOP_RECEIPT};
use crate::index;
use crate::payment::Payment;
use crate::registry::MOST_LINES;
use crate::rules::MOST_RECORDS;

// The states of an entry.
pub(crate) const ASKED: u64 = 1;
pub(crate) const CREDITED: u64 = 2;
pub(crate) const CANCEL_ASKED: u64 = 3;
pub(crate) const CANCELLED: u64 = 4;
pub(crate) const UNPOSTED: u64 = 5;

// The columns of an entry's figures that are read or written singly.
pub(crate) const STATE: usize = 4;
pub(crate) const AUTHCODE: usize = 5;

impl Head {
    /// Checks all that is lent.
    pub(crate) fn is_sound(&self, rows: &Rows) -> bool {
        let Rows { nums, numbers, dates } = rows;
        let lent = nums.len();
        let columns = (1..=MOST_RECORDS).contains(&lent) && numbers.len() == lent && dates.len() == lent;
        if !columns || self.used > lent || !fields::is_receipt(self.first) || !self.frozen.is_real() {
            return false;
        }
        // Up to the limit of one day there is nothing to count.
        let mut counts = if self.used > MOST_LINES { vec![0u16; DAY_NUMBERS] } else { Vec::new() };
        nums[..self.used].iter().zip(&numbers[..self.used]).zip(&dates[..self.used]).zip(self.first..).all(
            |(((nums, number), date), receipt)| {
                is_sound_entry(nums, number, receipt)
                    && date::day_number(date).is_some_and(|number| has_room(&mut counts, number))
            },
        )
    }

    /// The place of a receipt.
    pub(crate) fn place(&self, receipt: u64) -> Option<usize> {
        let place = usize::try_from(receipt.checked_sub(self.first)?).ok()?;
        (place < self.used).then_some(place)
    }

    /// Whether a used place is of a day that is frozen.
    pub(crate) fn is_frozen(&self, rows: &Rows, place: usize) -> bool {
        date::date_key(&rows.dates[place]) <= self.frozen.key()
    }

    /// How many entries of any state the day of this key has.
    pub(crate) fn count_on(&self, rows: &Rows, key: u64) -> usize {
        rows.dates[..self.used].iter().filter(|date| date::date_key(date) == key).count()
    }

    /// The places that the registry of a real day lists, in its order.
    pub(crate) fn listed(&self, rows: &Rows, day: Day) -> impl Iterator<Item = usize> {
        let key = day.key();
        let entries = rows.nums[..self.used].iter().zip(&rows.dates[..self.used]).enumerate();
        entries
            .filter(move |(_, (nums, date))| date::date_key(date) == key && nums[STATE] != CANCELLED)
            .map(|(place, _)| place)
    }
}

/// Counts one more entry on the day of this number, where days are counted at all.
fn has_room(counts: &mut [u16], number: usize) -> bool {
    counts.get_mut(number).is_none_or(|count| {
        *count += 1;
        usize::from(*count) <= MOST_LINES
    })
}

#[inline]
fn is_sound_entry(nums: &[u64; 6], number: &[u8; 30], receipt: u64) -> bool {
    let &[own_receipt, len, kind, kopecks, state, authcode] = nums;
    own_receipt == receipt
        && receipt <= TOP_RECEIPT
        && kind <= TOP_KIND
        && fields::is_kopecks(kopecks)
        && (ASKED..=UNPOSTED).contains(&state)
        && authcode <= TOP_RECEIPT
        && index::is_number(number, len)
}

/// The payment that a sound entry holds.
pub(crate) fn payment(rows: &Rows, place: usize) -> Payment {
    let [receipt, len, kind, kopecks, ..] = rows.nums[place];
    let number = Number { bytes: rows.numbers[place], len: len as usize };
    Payment { receipt, number, kind, kopecks, date: rows.dates[place] }
}

#[cfg(test)]
mod tests {
    use super::*;
    use crate::date::Date;

    struct Lent(Head, Vec<[u64; 6]>, Vec<[u8; 30]>, Vec<Date>);

    impl Lent {
        fn is_sound(&mut self) -> bool {
            self.0.is_sound(&Rows { nums: &mut self.1, numbers: &mut self.2, dates: &mut self.3 })
        }
    }

    /// So many entries, the first `busy` of them on one day and the others on days of their own.
    fn lent(used: usize, busy: usize) -> Lent {
        let head = Head { first: 7, used, frozen: Day::new(2005, 9, 19), settled: true };
        let nums = (0..4096).map(|place| [7 + place, 1, 1, 100, ASKED, 0]).collect();
        let mut day = Day::new(2005, 9, 20);
        let mut dates = Vec::new();
        for place in 0..4096 {
            let text = format!("{:04}-{:02}-{:02}T10:00:00", day.year, day.month, day.day);
            dates.push(text.into_bytes().try_into().expect("a date"));
            if place + 1 >= busy {
                day = day.day_after().expect("a day");
            }
        }
        Lent(head, nums, vec![[b'a'; 30]; 4096], dates)
    }

    #[test]
    fn every_field_out_of_range_is_seen() {
        let spoil: [fn(&mut Lent); 19] = [
            |l| l.0.used = usize::MAX,
            |l| l.0.used = 4097,
            |l| l.0.first = 0,
            |l| l.0.first = 8,
            |l| l.0.first = u64::MAX,
            |l| l.0.frozen = Day::new(2005, 2, 29),
            |l| l.1[1][0] = 9,
            |l| l.1[1][1] = 0,
            |l| l.1[1][1] = u64::MAX,
            |l| l.1[1][2] = 1000,
            |l| l.1[1][3] = 0,
            |l| l.1[1][3] = 1_000_000_000,
            |l| l.1[1][4] = 0,
            |l| l.1[1][4] = 6,
            |l| l.1[1][5] = 1_000_000_000_000_000,
            |l| l.2[1][0] = 0x7F,
            |l| l.3[1][18] = b'x',
            |l| l.1.truncate(4095),
            |l| l.3.push([0; 19]),
        ];
        assert!(lent(2, 2).is_sound());
        for (nth, spoil) in spoil.iter().enumerate() {
            let mut lent = lent(2, 2);
            spoil(&mut lent);
            assert!(!lent.is_sound(), "{nth}");
        }
    }

    #[test]
    fn a_day_has_at_most_512_entries() {
        assert!(lent(4096, 512).is_sound());
        assert!(!lent(4096, 513).is_sound());
        assert!(!lent(513, 513).is_sound());
        assert!(lent(512, 513).is_sound());
    }

    #[test]
    fn receipts_end_with_fifteen_digits() {
        let mut lent = lent(2, 2);
        for (first, sound) in [(TOP_RECEIPT - 1, true), (TOP_RECEIPT, false)] {
            lent.0.first = first;
            (lent.1[0][0], lent.1[1][0]) = (first, first + 1);
            assert_eq!(lent.is_sound(), sound);
        }
        lent.0.used = 0;
        assert!(lent.is_sound());
        assert_eq!((lent.0.place(TOP_RECEIPT), lent.0.place(0)), (None, None));
    }
}
