//! The rows that are lent to the calls, and what stands in them.
use crate::{Date, Day, Number};

/// How many records a table, or entries a book, may have at most.
pub const ROWS_MOST: usize = 4096;

/// The columns of a table or a book. Record `i` is `nums[i]`, `numbers[i]` and `dates[i]`; `nums` has receipt, length
/// of the number, type, kopecks, state and authcode.
///
/// The fields are public because there is nothing to protect: each call checks every value in use and refuses what is
/// wrong ([`Fault::Unsound`](crate::Fault::Unsound)). To keep a gate or a book over a restart, store its head and these
/// columns, and of a gate its [`Accounts`](crate::Accounts).
#[derive(Clone, Debug, PartialEq, Eq)]
pub struct Rows<D> {
    /// Receipt, length of the number, type, kopecks, state, authcode.
    pub nums: Vec<[u64; 6]>,
    /// The bytes of the number.
    pub numbers: Vec<[u8; 30]>,
    /// The date, or the dates.
    pub dates: Vec<D>,
}

/// The payment table: its dates are those of the payment, its credit and its cancel (zeros while it is done).
pub type Table = Rows<[Date; 3]>;

/// The entries of the agent's book, each with its payment's date.
pub type Entries = Rows<Date>;

/// A payment as both ends know it.
#[derive(Clone, Copy, Debug, PartialEq, Eq)]
pub struct Payment {
    /// The payment number, which counts once.
    pub receipt: u64,
    /// The number of its account.
    pub number: Number,
    /// The type of its account.
    pub kind: u64,
    /// The amount.
    pub kopecks: u64,
    /// When it was taken at the counter; its day is the day that it belongs to.
    pub date: Date,
}

/// A record of the payment table.
#[derive(Clone, Copy, Debug, PartialEq, Eq)]
pub struct Record {
    /// What was paid.
    pub payment: Payment,
    /// Done, or else cancelled.
    pub done: bool,
    /// Its place in the table, from 1.
    pub authcode: u64,
    /// When it was credited.
    pub credit: Date,
    /// When it was cancelled; `None` while it is done.
    pub cancel: Option<Date>,
}

/// How far the agent is with a payment.
#[derive(Clone, Copy, Debug, PartialEq, Eq, Hash)]
pub enum State {
    /// Accepted; the gate may have it or not.
    Asked,
    /// The gate has it.
    Credited,
    /// A cancel was written; the gate may have granted it or not.
    CancelAsked,
    /// The gate has cancelled it.
    Cancelled,
    /// The day's report says that the gate does not have it.
    Unposted,
}

/// An entry of the agent's book.
#[derive(Clone, Copy, Debug, PartialEq, Eq)]
pub struct Entry {
    /// What was paid.
    pub payment: Payment,
    /// How far it is.
    pub state: State,
    /// The gate's number for it, 0 until one is known.
    pub authcode: u64,
}

const DONE: u64 = 1;
const STATES: [State; 5] = [State::Asked, State::Credited, State::CancelAsked, State::Cancelled, State::Unposted];

impl<D: Copy> Rows<D> {
    fn blank(room: usize, date: D) -> Rows<D> {
        Rows { nums: vec![[0; 6]; room], numbers: vec![[0; 30]; room], dates: vec![date; room] }
    }

    fn payment(&self, place: usize, date: Date) -> Option<Payment> {
        let [receipt, len, kind, kopecks, ..] = *self.nums.get(place)?;
        let number = Number { bytes: *self.numbers.get(place)?, len: len.try_into().ok()? };
        Some(Payment { receipt, number, kind, kopecks, date })
    }
}

impl Table {
    /// A table with room for so many records, 1 to [`ROWS_MOST`].
    pub fn with_room(room: usize) -> Table {
        Rows::blank(room, [[0; 19]; 3])
    }

    /// The record at a place, from 0; it means something where the place is in use.
    pub fn record(&self, place: usize) -> Option<Record> {
        let [date, credit, cancel] = *self.dates.get(place)?;
        let payment = self.payment(place, date)?;
        let [.., state, authcode] = self.nums[place];
        let done = state == DONE;
        Some(Record { payment, done, authcode, credit, cancel: (!done).then_some(cancel) })
    }
}

impl Entries {
    /// A book with room for so many entries, 1 to [`ROWS_MOST`].
    pub fn with_room(room: usize) -> Entries {
        Rows::blank(room, [0; 19])
    }

    /// The entry at a place, from 0; it means something where the place is in use.
    pub fn entry(&self, place: usize) -> Option<Entry> {
        let payment = self.payment(place, *self.dates.get(place)?)?;
        let [.., state, authcode] = self.nums[place];
        let state = *STATES.get(usize::try_from(state).ok()?.checked_sub(1)?)?;
        Some(Entry { payment, state, authcode })
    }
}

impl Payment {
    /// The day that it belongs to.
    pub fn day(&self) -> Option<Day> {
        Day::of(&self.date)
    }
}

#[cfg(test)]
mod tests {
    use super::*;

    #[test]
    fn a_record_is_read_from_its_columns() {
        let mut table = Table::with_room(2);
        table.nums[1] = [7, 2, 1, 1012, 2, 2];
        table.numbers[1][..2].copy_from_slice(b"a1");
        table.dates[1] = [*b"2005-09-20T15:53:00", *b"2005-09-20T15:55:00", *b"2005-09-20T16:00:00"];
        let record = table.record(1).unwrap();
        assert_eq!((record.payment.receipt, record.payment.kopecks, record.authcode), (7, 1012, 2));
        assert_eq!(record.payment.number.as_bytes(), b"a1");
        assert_eq!(record.payment.day(), Some(Day::new(2005, 9, 20)));
        assert_eq!(record.cancel, Some(*b"2005-09-20T16:00:00"));
        assert_eq!(table.record(2), None);
    }

    #[test]
    fn states_count_from_one() {
        let mut entries = Entries::with_room(1);
        assert_eq!(entries.entry(0), None);
        for (state, number) in STATES.into_iter().zip(1..) {
            entries.nums[0][4] = number;
            assert_eq!(entries.entry(0).unwrap().state, state);
        }
        entries.nums[0][4] = 6;
        assert_eq!(entries.entry(0), None);
    }
}
