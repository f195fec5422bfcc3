//! The gate.
use crate::{Account, Accounts, Date, Day, Fault, GateHead, GateValue, Number, Record, Table, by_value, ffi};

/// How many bytes the buffer of an answer has at least.
pub const ANSWER_ROOM: usize = 512;

/// How many bytes the buffer of a report has at least.
pub const REPORT_ROOM: usize = 512;

/// The payment gate: accounts, the payment table and the last closed day.
///
/// The accounts are some 14 KB, so they lie on the heap. They are lent to the calls as the table is; a settlement alone
/// takes a copy of them.
#[derive(Clone, Debug, PartialEq, Eq)]
pub struct Gate {
    /// The columns of the accounts.
    pub accounts: Box<Accounts>,
    /// How many accounts are open, closed day, and how many records are in use.
    pub head: GateHead,
    /// The records.
    pub table: Table,
}

/// What the gate answers to a request.
#[derive(Clone, Copy, Debug, PartialEq, Eq)]
pub struct Answer<'a> {
    /// The code in the text: 0 is granted.
    pub code: u64,
    /// The text to send back.
    pub text: &'a [u8],
}

impl Answer<'_> {
    /// What was refused, where the code is not 0.
    pub fn fault(&self) -> Option<Fault> {
        Fault::of(self.code)
    }
}

impl Gate {
    /// A gate without accounts and with an empty table; the first day to be settled is the one after `closed`.
    pub fn new(closed: Day, table: Table) -> Gate {
        Gate { accounts: Box::new(Accounts::NONE), head: GateHead { count: 0, closed, used: 0 }, table }
    }

    /// The open accounts.
    pub fn accounts(&self) -> impl Iterator<Item = Account> + '_ {
        (0..self.head.count).map_while(|place| self.accounts.account(place))
    }

    /// The records in use.
    pub fn records(&self) -> impl Iterator<Item = Record> + '_ {
        (0..self.head.used).map_while(|place| self.table.record(place))
    }

    /// The balance of an account in kopecks, if it is open.
    pub fn balance(&self, number: &Number, kind: u64) -> Option<i64> {
        self.accounts().find(|account| account.kind == kind && account.number == *number).map(|account| account.balance)
    }

    /// Accounts and head as one value, for the calls of [`by_value`].
    pub fn value(&self) -> Box<GateValue> {
        let GateHead { count, closed, used } = self.head;
        Box::new(GateValue { accounts: self.accounts.values(), count, closed, used })
    }

    /// Puts accounts and head back from one value.
    pub fn put_value(&mut self, value: &GateValue) {
        let GateValue { ref accounts, count, closed, used } = *value;
        self.accounts.put(accounts);
        self.head = GateHead { count, closed, used };
    }

    /// Opens an account, with nothing on it.
    ///
    /// # Errors
    /// [`Unsound`](Fault::Unsound), [`BadAccount`](Fault::BadAccount), [`AccountKnown`](Fault::AccountKnown),
    /// [`ManyAccounts`](Fault::ManyAccounts).
    pub fn open_account(&mut self, number: Number, kind: u64) -> Result<(), Fault> {
        Fault::check(ffi::open_account(&self.table, &mut self.accounts, &mut self.head, number, kind))
    }

    /// Draws kopecks from an account, as a print job does.
    ///
    /// # Errors
    /// [`Unsound`](Fault::Unsound), [`BadAccount`](Fault::BadAccount), [`BadDraw`](Fault::BadDraw).
    pub fn draw_funds(&mut self, number: Number, kind: u64, kopecks: u64) -> Result<(), Fault> {
        Fault::check(ffi::draw_funds(&self.table, &mut self.accounts, &mut self.head, number, kind, kopecks))
    }

    /// Takes a request and answers it. The parameters are what stands after the question mark of a GET, or a POST's
    /// body.
    ///
    /// An answer of any code is to be sent back: a refusal is one too.
    ///
    /// # Errors
    /// [`Unsound`](Fault::Unsound), [`SmallBuffer`](Fault::SmallBuffer), [`BadClock`](Fault::BadClock): there is
    /// nothing to send then.
    pub fn deliver<'a>(&mut self, clock: &Date, parameters: &[u8], out: &'a mut [u8]) -> Result<Answer<'a>, Fault> {
        let (code, size) = ffi::deliver(&mut self.table, &mut self.accounts, &mut self.head, clock, parameters, out);
        match Fault::of(code) {
            Some(fault @ (Fault::Unsound | Fault::SmallBuffer | Fault::BadClock)) => Err(fault),
            _ => Ok(Answer { code, text: &out[..size] }),
        }
    }

    /// Settles a day by its registry, closes it and gives the report; a day that was closed before is only reported.
    ///
    /// # Errors
    /// [`Unsound`](Fault::Unsound), [`SmallBuffer`](Fault::SmallBuffer), [`BadClock`](Fault::BadClock),
    /// [`ManyLines`](Fault::ManyLines), [`BadLine`](Fault::BadLine), [`NotRising`](Fault::NotRising),
    /// [`WrongDay`](Fault::WrongDay).
    pub fn settle<'a>(
        &mut self,
        clock: &Date,
        day: Day,
        registry: &[u8],
        out: &'a mut [u8],
    ) -> Result<&'a [u8], Fault> {
        // There is no settlement over lent accounts. Making the value and putting it back is small beside the rest: a
        // settlement looks at every record and line.
        let mut value = self.value();
        let (code, size) = by_value::settle(&mut self.table, &mut value, clock, day, registry, out);
        self.put_value(&value);
        Fault::check(code)?;
        Ok(&out[..size])
    }
}
