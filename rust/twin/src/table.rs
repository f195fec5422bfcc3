//! A sound lent table as a ledger.

use crate::date::{Date, Day, NO_DATE};
use crate::fields::Number;
use crate::index::{AccountKey, Index};
use crate::ledger::{Finder, Ledger, View};
use crate::lent::{Account, Head, Rows};
use crate::payment::Payment;
use crate::rules::MOST_RECORDS;

// The states of a record.
pub(crate) const DONE: u64 = 1;
pub(crate) const CANCELLED: u64 = 2;

// The columns of a record that are read or written singly.
const KOPECKS: usize = 3;
pub(crate) const STATE: usize = 4;
const CANCEL_DATE: usize = 2;

/// A sound gate with its table.
pub(crate) struct Table<'a> {
    pub(crate) head: &'a mut Head,
    pub(crate) rows: Rows<'a>,
    pub(crate) index: &'a Index,
}

impl Table<'_> {
    fn balance_of(&mut self, place: usize) -> &mut i64 {
        let account = self.account_of(place);
        &mut self.head.accounts[account].balance
    }
}

impl Ledger for Table<'_> {
    fn closed(&self) -> Day {
        self.head.closed
    }

    fn close_day(&mut self, day: Day) {
        self.head.closed = day;
    }

    fn accounts(&self) -> usize {
        self.head.count
    }

    fn account(&self, number: &Number, kind: u64) -> Option<usize> {
        self.index.find(&AccountKey::new(&number.bytes, number.len as u64, kind)?)
    }

    fn add_account(&mut self, number: &Number, kind: u64) {
        // The index stays behind: no call looks up an account after opening one.
        self.head.accounts[self.head.count] = Account { number: *number, kind, balance: 0 };
        self.head.count += 1;
    }

    fn balance(&self, account: usize) -> i64 {
        self.head.accounts[account].balance
    }

    fn draw_kopecks(&mut self, account: usize, kopecks: u64) {
        self.head.accounts[account].balance -= kopecks as i64;
    }

    fn used(&self) -> usize {
        self.head.used
    }

    fn is_full(&self) -> bool {
        self.head.used == self.rows.nums.len()
    }

    fn record(&self, receipt: u64) -> Option<usize> {
        self.rows.nums[..self.head.used].iter().position(|nums| nums[0] == receipt)
    }

    fn view(&self, place: usize) -> View<'_> {
        let &[receipt, len, kind, kopecks, state, _] = &self.rows.nums[place];
        let number = &self.rows.numbers[place][..len as usize];
        let [date, credit, cancel] = &self.rows.dates[place];
        View { receipt, number, kind, kopecks, date, done: state == DONE, credit, cancel }
    }

    fn account_of(&self, place: usize) -> usize {
        let [_, len, kind, ..] = self.rows.nums[place];
        let key = AccountKey::new(&self.rows.numbers[place], len, kind);
        key.and_then(|key| self.index.find(&key)).expect("a sound record's account is known")
    }

    fn finder(&self) -> impl Finder {
        ByReceipt::new(&self.rows.nums[..self.head.used])
    }

    fn post(&mut self, payment: &Payment, account: usize, clock: &Date) {
        let Payment { receipt, number, kind, kopecks, date } = *payment;
        let place = self.head.used;
        self.rows.nums[place] = [receipt, number.len as u64, kind, kopecks, DONE, place as u64 + 1];
        self.rows.numbers[place] = number.bytes;
        self.rows.dates[place] = [date, *clock, NO_DATE];
        self.head.used += 1;
        self.head.accounts[account].balance += kopecks as i64;
    }

    fn cancel(&mut self, place: usize, clock: &Date) {
        let kopecks = self.rows.nums[place][KOPECKS] as i64;
        *self.balance_of(place) -= kopecks;
        self.rows.nums[place][STATE] = CANCELLED;
        self.rows.dates[place][CANCEL_DATE] = *clock;
    }

    fn restore(&mut self, place: usize) {
        let kopecks = self.rows.nums[place][KOPECKS] as i64;
        *self.balance_of(place) += kopecks;
        self.rows.nums[place][STATE] = DONE;
        self.rows.dates[place][CANCEL_DATE] = NO_DATE;
    }
}

/// The places of records in the order of their receipts, walked once from the start.
struct ByReceipt {
    /// Receipt and place in one word: a receipt has less than 50 bits, and sorting words is quick.
    sorted: Vec<u64>,
    at: usize,
}

impl ByReceipt {
    const PLACE_BITS: u32 = MOST_RECORDS.ilog2();

    fn new(nums: &[[u64; 6]]) -> ByReceipt {
        let mut sorted: Vec<u64> =
            nums.iter().zip(0..).map(|(nums, place)| nums[0] << ByReceipt::PLACE_BITS | place).collect();
        sorted.sort_unstable();
        ByReceipt { sorted, at: 0 }
    }
}

impl Finder for ByReceipt {
    fn places(&mut self, receipt: u64) -> impl Iterator<Item = usize> {
        let rest = &self.sorted[self.at..];
        let passed = rest.iter().take_while(|&word| word >> ByReceipt::PLACE_BITS < receipt).count();
        self.at += passed;
        let same = move |word: &&u64| **word >> ByReceipt::PLACE_BITS == receipt;
        rest[passed..].iter().take_while(same).map(|word| *word as usize % MOST_RECORDS)
    }
}

#[cfg(test)]
mod tests {
    use super::*;

    #[test]
    fn places_come_by_rising_receipt_and_first_place_first() {
        let receipts = [9, 999_999_999_999_999, 3, 9, 1, 9];
        let nums: Vec<[u64; 6]> = receipts.iter().map(|&receipt| [receipt, 0, 0, 0, 0, 0]).collect();
        let mut finder = ByReceipt::new(&nums);
        let mut places = |receipt| finder.places(receipt).collect::<Vec<_>>();
        assert_eq!(places(2), []);
        assert_eq!(places(3), [2]);
        assert_eq!(places(9), [0, 3, 5]);
        assert_eq!(places(10), []);
        assert_eq!(places(999_999_999_999_999), [1]);
    }
}
