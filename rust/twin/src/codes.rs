//! The numbers that calls return, under the names of what went wrong.

pub(crate) const FINE: u64 = 0;

// Codes that travel in an answer.
pub(crate) const UNKNOWN_ACTION: u64 = 1;
pub(crate) const WRONG_ACCOUNT: u64 = 2;
pub(crate) const WRONG_AMOUNT: u64 = 3;
pub(crate) const WRONG_RECEIPT: u64 = 4;
pub(crate) const WRONG_DATE: u64 = 5;
pub(crate) const NO_PAYMENT: u64 = 6;
pub(crate) const WAS_CANCELLED: u64 = 7;
pub(crate) const NOT_CANCELLED: u64 = 9;
pub(crate) const TABLE_FULL: u64 = 30;
pub(crate) const BAD_REQUEST: u64 = 31;
pub(crate) const BAD_REASON: u64 = 32;

// Codes that only the caller sees.
pub(crate) const SHORT_BUFFER: u64 = 50;
pub(crate) const BAD_CLOCK: u64 = 51;
pub(crate) const BAD_LINE: u64 = 52;
pub(crate) const TOO_MANY_LINES: u64 = 53;
pub(crate) const NOT_RISING: u64 = 54;
pub(crate) const WRONG_DAY: u64 = 55;
pub(crate) const ACCOUNT_OPEN: u64 = 56;
pub(crate) const NO_MORE_ACCOUNTS: u64 = 57;
pub(crate) const WRONG_DRAW: u64 = 58;
pub(crate) const NO_ACCOUNT: u64 = 59;
pub(crate) const WRONG_FIELD: u64 = 60;
pub(crate) const BOOK_FULL: u64 = 61;
pub(crate) const NOT_IN_BOOK: u64 = 62;
pub(crate) const FORBIDDEN: u64 = 63;
pub(crate) const UNREADABLE: u64 = 64;
pub(crate) const WRONG_REPORT: u64 = 65;
pub(crate) const NOT_NEXT_DAY: u64 = 66;
pub(crate) const UNSOUND: u64 = 68;
