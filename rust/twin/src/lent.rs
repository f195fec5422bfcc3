//! The gate over rows that the caller lends, checked whole at each call.

use crate::codes::UNSOUND;
use crate::date::{Date, Day, NO_DATE, is_date};
use crate::fields::{self, Number, TOP_KIND};
use crate::index::{AccountKey, Index};
use crate::rules::{self, MOST_ACCOUNTS, MOST_RECORDS};
use crate::settle;
use crate::table::{CANCELLED, DONE, STATE, Table};

const TOP_BALANCE: u64 = 10_000_000_000_000;

/// An account with its balance.
#[derive(Clone, Copy, Debug)]
pub struct Account {
    /// The subscriber's number.
    pub number: Number,
    /// The type of that number.
    pub kind: u64,
    /// The balance in kopecks.
    pub balance: i64,
}

/// What the gate keeps besides the payment table.
#[derive(Clone, Debug)]
pub struct Head {
    /// The accounts, of which the first `count` are open.
    pub accounts: [Account; 256],
    /// How many accounts are open.
    pub count: usize,
    /// The last closed day.
    pub closed: Day,
    /// How many records of the table are used.
    pub used: usize,
}

/// The payment table, a record a place, in three columns of one length.
pub struct Rows<'a> {
    /// Receipt, length of the number, type, kopecks, state (1 done, 2 cancelled) and authcode.
    pub nums: &'a mut [[u64; 6]],
    /// The number's bytes.
    pub numbers: &'a mut [[u8; 30]],
    /// The dates of the payment, of its credit and of its cancel.
    pub dates: &'a mut [[Date; 3]],
}

impl Head {
    /// A gate without accounts and records.
    pub fn new(closed: Day) -> Head {
        let none = Account { number: Number { bytes: [0; 30], len: 0 }, kind: 0, balance: 0 };
        Head { accounts: [none; MOST_ACCOUNTS], count: 0, closed, used: 0 }
    }

    /// Opens an account; the code.
    pub fn open(&mut self, rows: Rows, number: Number, kind: u64) -> u64 {
        self.with_table(rows, UNSOUND, |table| rules::open(table, &number, kind))
    }

    /// Draws kopecks from an account; the code.
    pub fn draw(&mut self, rows: Rows, number: Number, kind: u64, kopecks: u64) -> u64 {
        self.with_table(rows, UNSOUND, |table| rules::draw(table, &number, kind, kopecks))
    }

    /// Answers a request; the code and the length of the answer.
    pub fn deliver(&mut self, rows: Rows, clock: &Date, parameters: &[u8], out: &mut [u8]) -> (u64, usize) {
        self.with_table(rows, (UNSOUND, 0), |table| rules::deliver(table, clock, parameters, out))
    }

    /// Takes a registry; the code and the length of the report.
    pub fn settle(&mut self, rows: Rows, clock: &Date, day: Day, registry: &[u8], report: &mut [u8]) -> (u64, usize) {
        self.with_table(rows, (UNSOUND, 0), |table| settle::settle(table, clock, day, registry, report))
    }

    /// Runs a call on the table if all that is lent is sound.
    fn with_table<T>(&mut self, rows: Rows, unsound: T, call: impl FnOnce(&mut Table) -> T) -> T {
        // Filled in place and lent on, so that it is never copied.
        let mut index = Index::with_room(self.count.min(MOST_ACCOUNTS));
        if !self.is_sound(&rows, &mut index) {
            return unsound;
        }
        call(&mut Table { head: self, rows, index: &index })
    }

    /// Checks all that is lent and fills the index of accounts on the way.
    fn is_sound(&self, rows: &Rows, index: &mut Index) -> bool {
        let Rows { nums, numbers, dates } = rows;
        let lent = nums.len();
        let columns = (1..=MOST_RECORDS).contains(&lent) && numbers.len() == lent && dates.len() == lent;
        if !columns || self.used > lent || self.count > MOST_ACCOUNTS || !self.closed.is_real() {
            return false;
        }
        self.accounts[..self.count].iter().all(|account| index_account(account, index))
            && nums[..self.used].iter().zip(&numbers[..self.used]).zip(&dates[..self.used]).zip(1..).all(
                |(((nums, number), dates), place)| {
                    has_sound_figures(nums, place) && has_sound_dates(nums, dates) && has_account(nums, number, index)
                },
            )
    }
}

fn index_account(account: &Account, index: &mut Index) -> bool {
    let Account { number, kind, balance } = account;
    let sound = number.is_good() && *kind <= TOP_KIND && balance.unsigned_abs() <= TOP_BALANCE;
    if sound {
        index.push(number, *kind);
    }
    sound
}

#[inline]
fn has_sound_figures(nums: &[u64; 6], place: u64) -> bool {
    let &[receipt, _, _, kopecks, _, authcode] = nums;
    fields::is_receipt(receipt) && fields::is_kopecks(kopecks) && authcode == place
}

/// Whether the dates are good and the last one goes with the state.
#[inline]
fn has_sound_dates(nums: &[u64; 6], dates: &[Date; 3]) -> bool {
    let [paid, credit, cancel] = dates;
    let cancel_fits = match nums[STATE] {
        DONE => *cancel == NO_DATE,
        CANCELLED => is_date(cancel),
        _ => false,
    };
    cancel_fits && is_date(paid) && is_date(credit)
}

#[inline]
fn has_account(nums: &[u64; 6], number: &[u8; 30], index: &Index) -> bool {
    let &[_, len, kind, ..] = nums;
    AccountKey::new(number, len, kind).is_some_and(|key| index.find(&key).is_some())
}

#[cfg(test)]
mod tests {
    use super::*;
    use crate::codes::*;

    struct Lent(Head, Vec<[u64; 6]>, Vec<[u8; 30]>, Vec<[Date; 3]>);

    impl Lent {
        fn code(&mut self) -> u64 {
            let rows = Rows { nums: &mut self.1, numbers: &mut self.2, dates: &mut self.3 };
            self.0.deliver(rows, b"2005-09-20T15:55:00", b"action=check&number=a&amount=1", &mut [0; 512]).0
        }
    }

    /// One account and two records, done and cancelled, in a table of three places.
    fn lent() -> Lent {
        let date = *b"2005-09-20T15:53:00";
        let mut head = Head::new(Day::new(2005, 9, 19));
        head.accounts[0] = Account { number: Number::read(b"a").expect("good"), kind: 1, balance: 100 };
        (head.count, head.used) = (1, 2);
        let nums = vec![[5, 1, 1, 100, DONE, 1], [5, 1, 1, 100, CANCELLED, 2], [u64::MAX; 6]];
        let dates = vec![[date, date, NO_DATE], [date, date, date], [[255; 19]; 3]];
        Lent(head, nums, vec![[b'a'; 30]; 3], dates)
    }

    #[test]
    fn every_field_out_of_range_is_seen() {
        let spoil: [fn(&mut Lent); 26] = [
            |l| l.0.count = 257,
            |l| l.0.count = usize::MAX,
            |l| l.0.count = 2,
            |l| l.0.used = 4,
            |l| l.0.used = 3,
            |l| l.0.used = usize::MAX,
            |l| l.0.closed = Day::new(2005, 9, 31),
            |l| l.0.closed = Day::new(1999, 9, 30),
            |l| l.0.accounts[0].balance = 10_000_000_000_001,
            |l| l.0.accounts[0].balance = i64::MIN,
            |l| l.0.accounts[0].kind = 1000,
            |l| l.0.accounts[0].number.len = usize::MAX,
            |l| l.0.accounts[0].number.bytes[0] = b' ',
            |l| l.1[0][0] = 0,
            |l| l.1[1][0] = 1_000_000_000_000_000,
            |l| l.1[0][1] = u64::MAX,
            |l| l.1[0][1] = 2,
            |l| l.1[0][2] = 2,
            |l| l.1[0][3] = 0,
            |l| l.1[0][4] = 3,
            |l| l.1[0][5] = 2,
            |l| l.2[0][0] = b'b',
            |l| l.3[0][0] = NO_DATE,
            |l| l.3[0][1] = NO_DATE,
            |l| l.3[0][2] = *b"2005-09-20T15:53:00",
            |l| l.3[1][2] = NO_DATE,
        ];
        assert_eq!(lent().code(), FINE);
        for (nth, spoil) in spoil.iter().enumerate() {
            let mut lent = lent();
            spoil(&mut lent);
            assert_eq!(lent.code(), UNSOUND, "{nth}");
        }
    }

    #[test]
    fn lengths_of_columns() {
        let mut lent = lent();
        lent.0.accounts[0].balance = -10_000_000_000_000;
        let record = lent.1[1];
        lent.1.resize(4096, record);
        lent.2.resize(4096, [0; 30]);
        assert_eq!(lent.code(), UNSOUND);
        lent.3.resize(4096, [NO_DATE; 3]);
        assert_eq!(lent.code(), FINE);
        lent.1.push(record);
        lent.2.push([0; 30]);
        lent.3.push([NO_DATE; 3]);
        assert_eq!(lent.code(), UNSOUND);
        (lent.0.used, lent.1, lent.2, lent.3) = (0, vec![], vec![], vec![]);
        assert_eq!(lent.code(), UNSOUND);
    }
}
