//! The functions of the archive, as `include/roosteryore.h` has them: a lent slice is a pointer and a count, a lent
//! array a pointer alone.
use super::types::{Acceptance, BookHead, Booked, Day, GateHead, GateValue, HeadReply, Number, Reply, Writing};
use crate::Date;
use crate::accounts::{Balances, Keys, Names};

/// Declares functions whose first arguments are the three lent rows.
macro_rules! over_rows {
    ($pointer:tt $dates:ty; $(fn $name:ident($($arg:ident: $kind:ty),*) -> $given:ty;)*) => {
        unsafe extern "C" {
            $(pub(super) fn $name(
                nums: *$pointer [u64; 6], nums_count: usize,
                numbers: *$pointer [u8; 30], numbers_count: usize,
                dates: *$pointer $dates, dates_count: usize,
                $($arg: $kind),*
            ) -> $given;)*
        }
    };
}

// The table, read only.
over_rows! { const [Date; 3];
    fn roosteryore_open_account_lent(
        names: *mut Names, keys: *mut Keys, balances: *mut Balances, head: GateHead, number: Number, kind: u64
    ) -> HeadReply;
    fn roosteryore_draw_funds_lent(
        names: *const Names, keys: *const Keys, balances: *mut Balances, head: GateHead,
        number: Number, kind: u64, kopecks: u64
    ) -> HeadReply;
    fn roosteryore_open_account(gate: GateValue, number: Number, kind: u64) -> Reply;
    fn roosteryore_draw_funds(gate: GateValue, number: Number, kind: u64, kopecks: u64) -> Reply;
}

// The table, changed.
over_rows! { mut [Date; 3];
    fn roosteryore_deliver_lent(
        names: *const Names, keys: *const Keys, balances: *mut Balances, head: GateHead, clock: *const Date,
        params: *const u8, params_count: usize, out: *mut u8, out_count: usize
    ) -> HeadReply;
    fn roosteryore_deliver(
        gate: GateValue, clock: *const Date,
        params: *const u8, params_count: usize, out: *mut u8, out_count: usize
    ) -> Reply;
    fn roosteryore_settle(
        gate: GateValue, clock: *const Date, day: Day,
        bytes: *const u8, bytes_count: usize, out: *mut u8, out_count: usize
    ) -> Reply;
}

// The book, read only.
over_rows! { const Date;
    fn roosteryore_freeze(book: BookHead, day: Day) -> Booked;
    fn roosteryore_write_registry(book: BookHead, day: Day, out: *mut u8, out_count: usize) -> Writing;
    fn roosteryore_write_check(
        book: BookHead, number: Number, kind: u64, kopecks: u64, out: *mut u8, out_count: usize
    ) -> Writing;
}

// The book, changed.
over_rows! { mut Date;
    fn roosteryore_accept(book: BookHead, number: Number, kind: u64, kopecks: u64, date: *const Date) -> Acceptance;
    fn roosteryore_write_payment(book: BookHead, receipt: u64, out: *mut u8, out_count: usize) -> Writing;
    fn roosteryore_write_status(book: BookHead, receipt: u64, out: *mut u8, out_count: usize) -> Writing;
    fn roosteryore_write_cancel(book: BookHead, receipt: u64, reason: u64, out: *mut u8, out_count: usize) -> Writing;
    fn roosteryore_take_check_answer(book: BookHead, text: *const u8, text_count: usize) -> u64;
    fn roosteryore_take_payment_answer(book: BookHead, receipt: u64, text: *const u8, text_count: usize) -> u64;
    fn roosteryore_take_status_answer(book: BookHead, receipt: u64, text: *const u8, text_count: usize) -> u64;
    fn roosteryore_take_cancel_answer(book: BookHead, receipt: u64, text: *const u8, text_count: usize) -> u64;
    fn roosteryore_take_report(book: BookHead, day: Day, marks: *const u8, marks_count: usize) -> Booked;
}
