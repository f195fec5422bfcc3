//! Values of the proved calls as the twin has them, and what a call leaves.
use roosteryore as proved;
use std::fmt;
use twin::request::Action;

/// Bytes that print as text.
#[derive(Clone, PartialEq, Eq)]
pub struct Text(pub Vec<u8>);

impl fmt::Debug for Text {
    fn fmt(&self, f: &mut fmt::Formatter<'_>) -> fmt::Result {
        write!(f, "\"{}\"", self.0.escape_ascii())
    }
}

/// A buffer to be lent: so many bytes, all the same.
#[derive(Clone, Copy, Debug)]
pub struct Buffer {
    /// How many.
    pub room: usize,
    /// Which.
    pub fill: u8,
}

impl Buffer {
    /// No bytes, for calls that write none.
    pub const NONE: Buffer = Buffer { room: 0, fill: 0 };
}

/// What a call returns, and its buffer after it.
#[derive(Clone, Debug, PartialEq, Eq)]
pub struct Outcome {
    /// The code.
    pub code: u64,
    /// How many bytes were written, or the receipt of an acceptance.
    pub size: u64,
    /// The buffer.
    pub out: Text,
}

impl Outcome {
    /// What a call left that writes into a buffer.
    pub fn written(buffer: Buffer, call: impl FnOnce(&mut [u8]) -> (u64, u64)) -> Outcome {
        let mut out = vec![buffer.fill; buffer.room];
        let (code, size) = call(&mut out);
        Outcome { code, size, out: Text(out) }
    }

    /// What a call left that writes nothing.
    pub fn bare(code: u64) -> Outcome {
        Outcome { code, size: 0, out: Text(Vec::new()) }
    }
}

/// The code of a proved call.
pub fn code(result: Result<(), proved::Fault>) -> u64 {
    result.map_or_else(proved::Fault::code, |()| 0)
}

/// The code and the size of a proved writing.
pub fn written(result: Result<&[u8], proved::Fault>) -> (u64, u64) {
    result.map_or_else(|fault| (fault.code(), 0), |text| (0, text.len() as u64))
}

/// The code and the size of a proved delivery.
pub fn answered(result: Result<proved::Answer, proved::Fault>) -> (u64, u64) {
    result.map_or_else(|fault| (fault.code(), 0), |answer| (answer.code, answer.text.len() as u64))
}

/// A day as the twin has it.
pub fn day(day: proved::Day) -> twin::date::Day {
    twin::date::Day::new(day.year, day.month, day.day)
}

/// A number as the twin has it, with every byte.
pub fn number(number: proved::Number) -> twin::fields::Number {
    twin::fields::Number { bytes: number.bytes, len: number.len }
}

/// An action as the proved calls have it.
pub fn proved_action(action: Action) -> proved::Action {
    match action {
        Action::Check => proved::Action::Check,
        Action::Payment => proved::Action::Payment,
        Action::Status => proved::Action::Status,
        Action::Cancel => proved::Action::Cancel,
    }
}

/// The twin's view of a lent table.
pub fn table_rows(table: &mut proved::Table) -> twin::lent::Rows<'_> {
    twin::lent::Rows { nums: &mut table.nums, numbers: &mut table.numbers, dates: &mut table.dates }
}

/// The twin's view of a lent book.
pub fn book_rows(entries: &mut proved::Entries) -> twin::book::Rows<'_> {
    twin::book::Rows { nums: &mut entries.nums, numbers: &mut entries.numbers, dates: &mut entries.dates }
}

/// The twin's head of a gate.
pub fn gate_head(gate: &proved::Gate) -> twin::lent::Head {
    let proved::GateValue { accounts, count, closed, used } = *gate.value();
    let accounts = accounts.map(|account| twin::lent::Account {
        number: number(account.number),
        kind: account.kind,
        balance: account.balance,
    });
    twin::lent::Head { accounts, count, closed: day(closed), used }
}

/// The twin's head of a book.
pub fn book_head(head: &proved::BookHead) -> twin::book::Head {
    twin::book::Head { first: head.first, used: head.used, frozen: day(head.frozen), settled: head.settled }
}

/// Whether both have the same head, and the same accounts in every byte.
pub fn same_head(gate: &proved::Gate, other: &twin::lent::Head) -> bool {
    let proved::Gate { head, accounts, .. } = gate;
    let same = |(place, account): (usize, &twin::lent::Account)| {
        let twin::lent::Account { number, kind, balance } = *account;
        (accounts.names[place], accounts.keys[place], accounts.balances[place])
            == (number.bytes, [number.len as u64, kind], balance)
    };
    (head.count, head.used, day(head.closed)) == (other.count, other.used, other.closed)
        && other.accounts.iter().enumerate().all(same)
}

/// Whether a gate by value has the same head, and the same accounts in every byte.
pub fn same_value(gate: &proved::Gate, value: &proved::GateValue) -> bool {
    let mut other = proved::Gate::new(value.closed, proved::Table::with_room(0));
    other.put_value(value);
    (&other.accounts, other.head) == (&gate.accounts, gate.head)
}
