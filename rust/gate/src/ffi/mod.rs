//! The proved calls as they cross the boundary: the only unsafe code of this crate.
//!
//! They ask nothing of their caller beyond what Rust's types give (slices that are valid and do not overlap): whatever
//! the values are, a call answers with a code of document 01. Each function here hands rows and values over, puts the
//! new head in its place and gives the code.
#![allow(unsafe_code)]

/// Calls a function over lent rows; `as_ptr` lends them to be read, `as_mut_ptr` to be changed.
macro_rules! call {
    ($name:ident, $pointer:ident, $rows:expr $(, $arg:expr)*) => {
        // SAFETY: each pointer comes from a live slice and goes with its own count, or from a live array of as many
        // places as its type has; what is lent to be changed is borrowed mutably by the caller, so nothing overlaps it;
        // the callee keeps no pointer, and is proved to stay within counts and arrays for all values.
        unsafe {
            declared::$name(
                $rows.nums.$pointer(), $rows.nums.len(),
                $rows.numbers.$pointer(), $rows.numbers.len(),
                $rows.dates.$pointer(), $rows.dates.len(),
                $($arg),*
            )
        }
    };
}

// behind the macro, which by_value uses too
pub mod by_value;
mod declared;
mod types;

pub use types::{Account, BookHead, Day, GateHead, GateValue, Number};

use crate::{Accounts, Action, Date, Entries, Table};

/// The code of a call, and how many bytes of the buffer it wrote.
pub(crate) type Wrote = (u64, usize);

fn headed(reply: types::HeadReply, head: &mut GateHead) -> Wrote {
    *head = reply.head;
    (reply.code, reply.size)
}

fn booked(booked: types::Booked, book: &mut BookHead) -> u64 {
    *book = booked.book;
    booked.code
}

pub(crate) fn open_account(
    table: &Table,
    Accounts { names, keys, balances }: &mut Accounts,
    head: &mut GateHead,
    number: Number,
    kind: u64,
) -> u64 {
    let reply = call!(roosteryore_open_account_lent, as_ptr, table, names, keys, balances, *head, number, kind);
    headed(reply, head).0
}

pub(crate) fn draw_funds(
    table: &Table,
    Accounts { names, keys, balances }: &mut Accounts,
    head: &mut GateHead,
    number: Number,
    kind: u64,
    kopecks: u64,
) -> u64 {
    let reply = call!(roosteryore_draw_funds_lent, as_ptr, table, names, keys, balances, *head, number, kind, kopecks);
    headed(reply, head).0
}

pub(crate) fn deliver(
    table: &mut Table,
    Accounts { names, keys, balances }: &mut Accounts,
    head: &mut GateHead,
    clock: &Date,
    parameters: &[u8],
    out: &mut [u8],
) -> Wrote {
    let reply = call!(
        roosteryore_deliver_lent,
        as_mut_ptr,
        table,
        names,
        keys,
        balances,
        *head,
        clock,
        parameters.as_ptr(),
        parameters.len(),
        out.as_mut_ptr(),
        out.len()
    );
    headed(reply, head)
}

/// The code and the receipt.
pub(crate) fn accept(
    entries: &mut Entries,
    book: &mut BookHead,
    number: Number,
    kind: u64,
    kopecks: u64,
    date: &Date,
) -> (u64, u64) {
    let given = call!(roosteryore_accept, as_mut_ptr, entries, *book, number, kind, kopecks, date);
    *book = given.book;
    (given.code, given.receipt)
}

pub(crate) fn freeze(entries: &Entries, book: &mut BookHead, day: Day) -> u64 {
    booked(call!(roosteryore_freeze, as_ptr, entries, *book, day), book)
}

pub(crate) fn write_registry(entries: &Entries, book: &BookHead, day: Day, out: &mut [u8]) -> Wrote {
    let given = call!(roosteryore_write_registry, as_ptr, entries, *book, day, out.as_mut_ptr(), out.len());
    (given.code, given.size)
}

pub(crate) fn write_check(
    entries: &Entries,
    book: &BookHead,
    number: Number,
    kind: u64,
    kopecks: u64,
    out: &mut [u8],
) -> Wrote {
    let given =
        call!(roosteryore_write_check, as_ptr, entries, *book, number, kind, kopecks, out.as_mut_ptr(), out.len());
    (given.code, given.size)
}

pub(crate) fn write_payment(entries: &mut Entries, book: &BookHead, receipt: u64, out: &mut [u8]) -> Wrote {
    let given = call!(roosteryore_write_payment, as_mut_ptr, entries, *book, receipt, out.as_mut_ptr(), out.len());
    (given.code, given.size)
}

pub(crate) fn write_status(entries: &mut Entries, book: &BookHead, receipt: u64, out: &mut [u8]) -> Wrote {
    let given = call!(roosteryore_write_status, as_mut_ptr, entries, *book, receipt, out.as_mut_ptr(), out.len());
    (given.code, given.size)
}

pub(crate) fn write_cancel(entries: &mut Entries, book: &BookHead, receipt: u64, reason: u64, out: &mut [u8]) -> Wrote {
    let given =
        call!(roosteryore_write_cancel, as_mut_ptr, entries, *book, receipt, reason, out.as_mut_ptr(), out.len());
    (given.code, given.size)
}

/// One function an action crosses; a check's answer has no receipt.
pub(crate) fn take_answer(entries: &mut Entries, book: &BookHead, action: Action, receipt: u64, text: &[u8]) -> u64 {
    let (bytes, count) = (text.as_ptr(), text.len());
    match action {
        Action::Check => call!(roosteryore_take_check_answer, as_mut_ptr, entries, *book, bytes, count),
        Action::Payment => call!(roosteryore_take_payment_answer, as_mut_ptr, entries, *book, receipt, bytes, count),
        Action::Status => call!(roosteryore_take_status_answer, as_mut_ptr, entries, *book, receipt, bytes, count),
        Action::Cancel => call!(roosteryore_take_cancel_answer, as_mut_ptr, entries, *book, receipt, bytes, count),
    }
}

pub(crate) fn take_report(entries: &mut Entries, book: &mut BookHead, day: Day, marks: &[u8]) -> u64 {
    booked(call!(roosteryore_take_report, as_mut_ptr, entries, *book, day, marks.as_ptr(), marks.len()), book)
}
