//! The agent's book.
use crate::{BookHead, Date, Day, Entries, Entry, Fault, Number, ffi};

/// How many bytes the buffer of a request has at least.
pub const REQUEST_ROOM: usize = 512;

/// How many bytes the buffer of a registry has at least.
pub const REGISTRY_ROOM: usize = 65_536;

/// What a request asks of the gate.
#[derive(Clone, Copy, Debug, PartialEq, Eq, Hash)]
pub enum Action {
    /// Could a payment go to this account?
    Check,
    /// Credit a payment.
    Payment,
    /// How does a payment stand?
    Status,
    /// Take a payment back.
    Cancel,
}

/// The agent's book: the payments that were taken at counters, and the last frozen day.
#[derive(Clone, Debug, PartialEq, Eq)]
pub struct Book {
    /// First receipt, frozen day, and how many entries are in use.
    pub head: BookHead,
    /// The columns of the entries.
    pub rows: Entries,
}

/// A writing's text, where its code is 0.
fn written(out: &[u8], (code, size): ffi::Wrote) -> Result<&[u8], Fault> {
    Fault::check(code)?;
    Ok(&out[..size])
}

impl Book {
    /// An empty book; its receipts rise from `first`, and payments are taken for the days after `frozen`.
    pub fn new(first: u64, frozen: Day, rows: Entries) -> Book {
        Book { head: BookHead { first, used: 0, frozen, settled: true }, rows }
    }

    /// The entries in use.
    pub fn entries(&self) -> impl Iterator<Item = Entry> + '_ {
        (0..self.head.used).map_while(|place| self.rows.entry(place))
    }

    /// The entry of a receipt.
    pub fn entry(&self, receipt: u64) -> Option<Entry> {
        let place = usize::try_from(receipt.checked_sub(self.head.first)?).ok()?;
        (place < self.head.used).then(|| self.rows.entry(place))?
    }

    /// Accepts a payment and gives its receipt.
    ///
    /// # Errors
    /// [`Unsound`](Fault::Unsound), [`BadField`](Fault::BadField), [`NoPlace`](Fault::NoPlace).
    pub fn accept(&mut self, number: Number, kind: u64, kopecks: u64, date: &Date) -> Result<u64, Fault> {
        let (code, receipt) = ffi::accept(&mut self.rows, &mut self.head, number, kind, kopecks, date);
        Fault::check(code)?;
        Ok(receipt)
    }

    /// Writes a check: could this payment be made?
    ///
    /// # Errors
    /// [`Unsound`](Fault::Unsound), [`SmallBuffer`](Fault::SmallBuffer), [`BadField`](Fault::BadField).
    pub fn write_check<'a>(
        &self,
        number: Number,
        kind: u64,
        kopecks: u64,
        out: &'a mut [u8],
    ) -> Result<&'a [u8], Fault> {
        let wrote = ffi::write_check(&self.rows, &self.head, number, kind, kopecks, out);
        written(out, wrote)
    }

    /// Writes the payment of a receipt; again, if need be, while it is asked.
    ///
    /// # Errors
    /// [`Unsound`](Fault::Unsound), [`SmallBuffer`](Fault::SmallBuffer), [`BadField`](Fault::BadField),
    /// [`UnknownReceipt`](Fault::UnknownReceipt), [`Forbidden`](Fault::Forbidden).
    pub fn write_payment<'a>(&mut self, receipt: u64, out: &'a mut [u8]) -> Result<&'a [u8], Fault> {
        let wrote = ffi::write_payment(&mut self.rows, &self.head, receipt, out);
        written(out, wrote)
    }

    /// Writes the status of a receipt.
    ///
    /// # Errors
    /// As [`write_payment`](Book::write_payment).
    pub fn write_status<'a>(&mut self, receipt: u64, out: &'a mut [u8]) -> Result<&'a [u8], Fault> {
        let wrote = ffi::write_status(&mut self.rows, &self.head, receipt, out);
        written(out, wrote)
    }

    /// Writes the cancel of a receipt for a reason, 1 to 5; its entry is cancel-asked from then on.
    ///
    /// # Errors
    /// As [`write_payment`](Book::write_payment).
    pub fn write_cancel<'a>(&mut self, receipt: u64, reason: u64, out: &'a mut [u8]) -> Result<&'a [u8], Fault> {
        let wrote = ffi::write_cancel(&mut self.rows, &self.head, receipt, reason, out);
        written(out, wrote)
    }

    /// Takes the answer to a request of this action and receipt; of a check's the receipt is not looked at.
    ///
    /// # Errors
    /// [`Unsound`](Fault::Unsound), [`BadField`](Fault::BadField), [`UnknownReceipt`](Fault::UnknownReceipt),
    /// [`Unreadable`](Fault::Unreadable).
    pub fn take_answer(&mut self, action: Action, receipt: u64, text: &[u8]) -> Result<(), Fault> {
        Fault::check(ffi::take_answer(&mut self.rows, &self.head, action, receipt, text))
    }

    /// Freezes the day after the frozen one, once that one has its report: no payment of it is accepted, written or
    /// moved any longer.
    ///
    /// # Errors
    /// [`Unsound`](Fault::Unsound), [`WrongDay`](Fault::WrongDay), [`NotNext`](Fault::NotNext).
    pub fn freeze(&mut self, day: Day) -> Result<(), Fault> {
        Fault::check(ffi::freeze(&self.rows, &mut self.head, day))
    }

    /// Writes the registry of a frozen day, alike each time.
    ///
    /// # Errors
    /// [`Unsound`](Fault::Unsound), [`SmallBuffer`](Fault::SmallBuffer), [`WrongDay`](Fault::WrongDay).
    pub fn write_registry<'a>(&self, day: Day, out: &'a mut [u8]) -> Result<&'a [u8], Fault> {
        let wrote = ffi::write_registry(&self.rows, &self.head, day, out);
        written(out, wrote)
    }

    /// Takes the report of a frozen day: the day is settled.
    ///
    /// # Errors
    /// [`Unsound`](Fault::Unsound), [`WrongDay`](Fault::WrongDay), [`BadReport`](Fault::BadReport).
    pub fn take_report(&mut self, day: Day, marks: &[u8]) -> Result<(), Fault> {
        Fault::check(ffi::take_report(&mut self.rows, &mut self.head, day, marks))
    }
}
