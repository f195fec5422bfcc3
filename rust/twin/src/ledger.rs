//! What a gate keeps, as far as the rules need to see and move it.

use crate::date::{Date, Day};
use crate::fields::Number;
use crate::payment::Payment;

/// One recorded payment, seen where it is kept.
#[derive(Clone, Copy)]
pub(crate) struct View<'a> {
    pub(crate) receipt: u64,
    pub(crate) number: &'a [u8],
    pub(crate) kind: u64,
    pub(crate) kopecks: u64,
    pub(crate) date: &'a Date,
    pub(crate) done: bool,
    pub(crate) credit: &'a Date,
    pub(crate) cancel: &'a Date,
}

impl View<'_> {
    /// Whether a request or a line of a registry tells of this very payment.
    pub(crate) fn agrees(&self, told: &Payment) -> bool {
        self.receipt == told.receipt
            && self.kopecks == told.kopecks
            && self.kind == told.kind
            && *self.date == told.date
            && *self.number == told.number.bytes[..told.number.len]
    }
}

/// Finds the records of receipts that are asked for in rising order.
pub(crate) trait Finder {
    /// The places of all records with this receipt, the first one first.
    fn places(&mut self, receipt: u64) -> impl Iterator<Item = usize>;
}

/// Accounts, payment table and closed day. Places and accounts count from 0; those handed in have to exist.
pub(crate) trait Ledger {
    fn closed(&self) -> Day;
    fn close_day(&mut self, day: Day);

    /// How many accounts are open.
    fn accounts(&self) -> usize;
    /// The first account of this number and type.
    fn account(&self, number: &Number, kind: u64) -> Option<usize>;
    /// Opens one more account for a good number and type, with nothing on it.
    fn add_account(&mut self, number: &Number, kind: u64);
    fn balance(&self, account: usize) -> i64;
    fn draw_kopecks(&mut self, account: usize, kopecks: u64);

    /// How many records are used.
    fn used(&self) -> usize;
    fn is_full(&self) -> bool;
    /// The first record of this receipt.
    fn record(&self, receipt: u64) -> Option<usize>;
    fn view(&self, place: usize) -> View<'_>;
    /// The account that the record at a place credited.
    fn account_of(&self, place: usize) -> usize;
    /// A way to look up many receipts.
    fn finder(&self) -> impl Finder;

    /// Credits the account and adds a done record; the table is not full.
    fn post(&mut self, payment: &Payment, account: usize, clock: &Date);
    /// Turns a done record to cancelled and takes its sum back, even below zero.
    fn cancel(&mut self, place: usize, clock: &Date);
    /// Turns a cancelled record to done again and gives its sum back.
    fn restore(&mut self, place: usize);
}

#[cfg(test)]
mod tests {
    use super::*;

    #[test]
    fn a_line_agrees_in_all_that_it_says() {
        let date = *b"2005-09-20T15:53:00";
        let number = Number::read(b"a12").expect("good");
        let line = Payment { receipt: 7, number, kind: 1, kopecks: 1012, date };
        let view = View {
            receipt: 7,
            number: b"a12",
            kind: 1,
            kopecks: 1012,
            date: &date,
            done: false,
            credit: &[0; 19],
            cancel: &[0; 19],
        };
        assert!(view.agrees(&line));
        let later = *b"2005-09-20T15:53:01";
        let others = [
            View { receipt: 8, ..view },
            View { number: b"a1", ..view },
            View { number: b"a13", ..view },
            View { number: b"a12\0", ..view },
            View { kind: 2, ..view },
            View { kopecks: 1011, ..view },
            View { date: &later, ..view },
        ];
        assert!(!others.iter().any(|other| other.agrees(&line)));
    }
}
