//! The gate that keeps and indexes its own state, and trusts it.

use std::collections::HashMap;

use crate::date::{Date, Day, NO_DATE};
use crate::fields::Number;
use crate::index::{AccountKey, Index, WordHash};
use crate::ledger::{Finder, Ledger, View};
pub use crate::payment::Payment;
use crate::rules::{self, MOST_ACCOUNTS, MOST_RECORDS};
use crate::settle;

/// A recorded payment.
#[derive(Clone, Copy, Debug)]
pub struct Record {
    /// The payment as the agent named it.
    pub payment: Payment,
    /// Whether it is done; otherwise it is cancelled.
    pub done: bool,
    /// When it was credited.
    pub credit: Date,
    /// When it was cancelled; zeros while it is done.
    pub cancel: Date,
}

/// A record with the place of its account.
#[derive(Clone, Copy, Debug)]
struct Entry {
    record: Record,
    account: usize,
}

/// A gate with its accounts and payments.
#[derive(Clone, Debug)]
pub struct Gate {
    closed: Day,
    room: usize,
    accounts: Index,
    balances: Vec<i64>,
    entries: Vec<Entry>,
    receipts: HashMap<u64, usize, WordHash>,
}

impl Gate {
    /// A gate without accounts that may hold `room` records, 1 to 4,096.
    pub fn new(closed: Day, room: usize) -> Gate {
        let room = room.min(MOST_RECORDS);
        Gate {
            closed,
            room,
            accounts: Index::with_room(MOST_ACCOUNTS),
            balances: Vec::new(),
            entries: Vec::with_capacity(room),
            receipts: HashMap::with_capacity_and_hasher(room, WordHash::default()),
        }
    }

    /// Opens an account; the code.
    pub fn open(&mut self, number: Number, kind: u64) -> u64 {
        rules::open(self, &number, kind)
    }

    /// Draws kopecks from an account; the code.
    pub fn draw(&mut self, number: Number, kind: u64, kopecks: u64) -> u64 {
        rules::draw(self, &number, kind, kopecks)
    }

    /// Answers a request; the code and the length of the answer.
    pub fn deliver(&mut self, clock: &Date, parameters: &[u8], out: &mut [u8]) -> (u64, usize) {
        rules::deliver(self, clock, parameters, out)
    }

    /// Takes a registry; the code and the length of the report.
    pub fn settle(&mut self, clock: &Date, day: Day, registry: &[u8], report: &mut [u8]) -> (u64, usize) {
        settle::settle(self, clock, day, registry, report)
    }

    /// Sets the closed day.
    pub fn close(&mut self, day: Day) {
        self.closed = day;
    }

    /// Makes room for one record more, so that the next one moves nothing.
    pub fn reserve(&mut self) {
        self.entries.reserve(1);
        self.receipts.reserve(1);
    }

    /// The balances in the order of opening.
    pub fn balances(&self) -> &[i64] {
        &self.balances
    }

    /// The records in the order of their authcodes.
    pub fn records(&self) -> impl ExactSizeIterator<Item = &Record> {
        self.entries.iter().map(|entry| &entry.record)
    }
}

impl Ledger for Gate {
    fn closed(&self) -> Day {
        self.closed
    }

    fn close_day(&mut self, day: Day) {
        self.closed = day;
    }

    fn accounts(&self) -> usize {
        self.balances.len()
    }

    fn account(&self, number: &Number, kind: u64) -> Option<usize> {
        self.accounts.find(&AccountKey::new(&number.bytes, number.len as u64, kind)?)
    }

    fn add_account(&mut self, number: &Number, kind: u64) {
        self.accounts.push(number, kind);
        self.balances.push(0);
    }

    fn balance(&self, account: usize) -> i64 {
        self.balances[account]
    }

    fn draw_kopecks(&mut self, account: usize, kopecks: u64) {
        self.balances[account] -= kopecks as i64;
    }

    fn used(&self) -> usize {
        self.entries.len()
    }

    fn is_full(&self) -> bool {
        self.entries.len() >= self.room
    }

    fn record(&self, receipt: u64) -> Option<usize> {
        self.receipts.get(&receipt).copied()
    }

    fn view(&self, place: usize) -> View<'_> {
        let Record { payment, done, credit, cancel } = &self.entries[place].record;
        let Payment { receipt, number, kind, kopecks, date } = payment;
        let number = &number.bytes[..number.len];
        View { receipt: *receipt, number, kind: *kind, kopecks: *kopecks, date, done: *done, credit, cancel }
    }

    fn account_of(&self, place: usize) -> usize {
        self.entries[place].account
    }

    fn finder(&self) -> impl Finder {
        Hashed(&self.receipts)
    }

    fn post(&mut self, payment: &Payment, account: usize, clock: &Date) {
        let record = Record { payment: *payment, done: true, credit: *clock, cancel: NO_DATE };
        self.receipts.insert(payment.receipt, self.entries.len());
        self.entries.push(Entry { record, account });
        self.balances[account] += payment.kopecks as i64;
    }

    fn cancel(&mut self, place: usize, clock: &Date) {
        let Entry { record, account } = &mut self.entries[place];
        (record.done, record.cancel) = (false, *clock);
        self.balances[*account] -= record.payment.kopecks as i64;
    }

    fn restore(&mut self, place: usize) {
        let Entry { record, account } = &mut self.entries[place];
        (record.done, record.cancel) = (true, NO_DATE);
        self.balances[*account] += record.payment.kopecks as i64;
    }
}

/// Finds receipts through the gate's own index; they are unique here.
struct Hashed<'a>(&'a HashMap<u64, usize, WordHash>);

impl Finder for Hashed<'_> {
    fn places(&mut self, receipt: u64) -> impl Iterator<Item = usize> {
        self.0.get(&receipt).copied().into_iter()
    }
}

#[cfg(test)]
mod tests {
    use super::*;

    const CLOCK: Date = *b"2005-09-20T15:55:00";

    #[test]
    fn records_and_balances_stand_in_order() {
        let mut gate = Gate::new(Day::new(2005, 9, 19), 4096);
        for text in [&b"a"[..], b"b"] {
            assert_eq!(gate.open(Number::read(text).expect("good"), 1), 0);
        }
        for (receipt, number) in [(9, "b"), (2, "a"), (5, "b")] {
            let text = format!("action=payment&number={number}&amount=1&date=2005-09-20T10:00:00&receipt={receipt}");
            gate.reserve();
            assert_eq!(gate.deliver(&CLOCK, text.as_bytes(), &mut [0; 512]).0, 0);
        }
        assert_eq!(gate.balances(), [100, 200]);
        assert_eq!(gate.records().len(), 3);
        assert_eq!(gate.records().map(|record| record.payment.receipt).collect::<Vec<_>>(), [9, 2, 5]);
        assert_eq!(gate.deliver(&CLOCK, b"action=cancel&receipt=9&mes=1", &mut [0; 512]).0, 0);
        let first = gate.records().next().expect("a record");
        assert_eq!((first.done, first.cancel, gate.balances()), (false, CLOCK, &[100, 100][..]));
    }

    #[test]
    fn odd_rooms_and_days_do_not_panic() {
        let mut gate = Gate::new(Day::new(65535, 255, 255), usize::MAX);
        assert_eq!(gate.open(Number::read(b"a").expect("good"), 1), 0);
        let text = b"action=payment&number=a&amount=1&date=2099-12-31T10:00:00&receipt=1";
        assert_eq!(gate.deliver(&CLOCK, text, &mut [0; 512]).0, 5);
        gate.close(Day::new(0, 0, 0));
        assert_eq!(gate.deliver(&CLOCK, text, &mut [0; 512]).0, 0);
        assert_eq!(gate.settle(&CLOCK, Day::new(2005, 9, 20), b"", &mut [0; 512]).0, 55);
    }
}
