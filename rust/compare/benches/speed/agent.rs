//! The agent's calls. There is no owner here: the twin of the book checks what it is lent, too.
use crate::sides::{Books, CLOCK, LentBook, PutBack, START, TODAY, Touched, choir};
use crate::stopwatch::{Side, Stopwatch, side};
use compare::sides::{self, book_rows};
use roosteryore::{Action, Book, Day, REGISTRY_ROOM, ROWS_MOST};
use std::hint::black_box;
use twin::request;

pub const PAID: &[u8] = b"<?xml version=\"1.0\" encoding=\"windows-1251\"?><response><code>0</code>\
    <authcode>1</authcode><date>2005-09-20T15:55:00</date></response>";
pub const CHECKED: &[u8] = b"<?xml version=\"1.0\" encoding=\"windows-1251\"?><response><code>0</code></response>";

/// A side of a book with its buffer: put back before each call, and the buffer's first bytes cleared.
fn book_side<'a, S: PutBack + Clone, R>(
    from: &'a S,
    touched: Touched,
    mut call: impl FnMut(&mut S, &mut [u8]) -> R + 'a,
) -> Side<'a> {
    let restore = move |(state, out): &mut (S, Vec<u8>)| {
        state.put_back(from, touched);
        out.fill(0);
    };
    side((from.clone(), vec![0; REGISTRY_ROOM]), restore, move |(state, out)| call(state, out))
}

/// Both sides of a call.
fn both<'a, P, T>(
    books: &'a Books,
    touched: Touched,
    proved: impl FnMut(&mut Book, &mut [u8]) -> P + 'a,
    twin: impl FnMut(&mut LentBook, &mut [u8]) -> T + 'a,
) -> Vec<Side<'a>> {
    vec![book_side(&books.proved, touched, proved), book_side(&books.lent, touched, twin)]
}

/// Each call once, with 256 entries.
pub fn calls(stopwatch: &mut Stopwatch) {
    stopwatch.table("Calls of the agent, 256 entries in use", false);
    let books = Books::new(256, ROWS_MOST, |_| TODAY);
    let (number, last) = (choir(3), books.proved.head.first + 255);
    let name = sides::number(number);
    stopwatch.row(
        "accept",
        both(
            &books,
            Touched::Row(256),
            move |book, _| book.accept(number, 1, 1012, CLOCK),
            move |LentBook { head, entries }, _| head.accept(book_rows(entries), name, 1, 1012, CLOCK),
        ),
    );
    stopwatch.row(
        "write_check",
        both(
            &books,
            Touched::Nothing,
            move |book, out| book.write_check(number, 1, 1012, out).map(<[u8]>::len),
            move |LentBook { head, entries }, out| head.write_check(book_rows(entries), name, 1, 1012, out),
        ),
    );
    let write = |action| {
        move |LentBook { head, entries }: &mut LentBook, out: &mut [u8]| {
            head.write(book_rows(entries), action, last, 1, out)
        }
    };
    let written = |book: Result<&[u8], roosteryore::Fault>| book.map(<[u8]>::len);
    stopwatch.row(
        "write_payment",
        both(
            &books,
            Touched::Nothing,
            |book, out| written(book.write_payment(last, out)),
            write(request::Action::Payment),
        ),
    );
    stopwatch.row(
        "write_status",
        both(
            &books,
            Touched::Nothing,
            |book, out| written(book.write_status(last, out)),
            write(request::Action::Status),
        ),
    );
    stopwatch.row(
        "write_cancel",
        both(
            &books,
            Touched::Row(255),
            |book, out| written(book.write_cancel(last, 1, out)),
            write(request::Action::Cancel),
        ),
    );
    stopwatch.row("take_answer, a check's", take_answer(&books, Action::Check, request::Action::Check, CHECKED));
    stopwatch.row("take_answer, a payment's", take_answer(&books, Action::Payment, request::Action::Payment, PAID));
    stopwatch.row("take_answer, a cancel's", take_answer(&books, Action::Cancel, request::Action::Cancel, PAID));
    stopwatch.row(
        "freeze",
        both(
            &books,
            Touched::Nothing,
            |book, _| book.freeze(TODAY),
            |LentBook { head, entries }, _| head.freeze(book_rows(entries), sides::day(TODAY)),
        ),
    );
    day_end(stopwatch, "", &frozen(books));
}

fn take_answer<'a>(books: &'a Books, action: Action, twin_action: request::Action, text: &'a [u8]) -> Vec<Side<'a>> {
    let (last, place) = (books.proved.head.first + books.proved.head.used as u64 - 1, books.proved.head.used - 1);
    both(
        books,
        Touched::Row(place),
        move |book, _| book.take_answer(action, last, black_box(text)),
        move |LentBook { head, entries }, _| head.take_answer(book_rows(entries), twin_action, last, black_box(text)),
    )
}

/// The same book with its first day frozen.
fn frozen(mut books: Books) -> Books {
    books.proved.freeze(TODAY).expect("the next day");
    books.lent.head = sides::book_head(&books.proved.head);
    books
}

/// The registry and the report of the frozen day.
fn day_end(stopwatch: &mut Stopwatch, what: &str, books: &Books) {
    let day = sides::day(TODAY);
    stopwatch.row(
        &format!("write_registry{what}"),
        both(
            books,
            Touched::Nothing,
            |book, out| book.write_registry(TODAY, out).map(<[u8]>::len),
            move |LentBook { head, entries }, out| head.write_registry(book_rows(entries), day, out),
        ),
    );
    let lines = books.proved.head.used.min(512);
    let marks = vec![b'1'; lines];
    stopwatch.row(
        &format!("take_report{what}"),
        both(
            books,
            Touched::All,
            |book, _| book.take_report(TODAY, black_box(&marks)),
            |LentBook { head, entries }, _| head.take_report(book_rows(entries), day, black_box(&marks)),
        ),
    );
}

/// An answer, by entries; and the end of a full day.
pub fn growth(stopwatch: &mut Stopwatch) {
    stopwatch.table("An answer taken, by entries in use; a day of 512 entries among 4,095", false);
    let day = |place: usize| Day::new(2005, 9, START.day + 1 + (place / 512) as u8);
    for used in [16, 256, 1024, 4095] {
        let books = Books::new(used, ROWS_MOST, day);
        let name = format!("take_answer, {used} entries");
        stopwatch.row(&name, take_answer(&books, Action::Payment, request::Action::Payment, PAID));
    }
    day_end(stopwatch, ", 512 of 4,095", &frozen(Books::new(4095, ROWS_MOST, day)));
}
