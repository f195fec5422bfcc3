//! The readers alone: what a call that reads a text takes longer than the same call where it looks at one byte of it at
//! most, on a state with next to nothing in it that stays as it is.
use crate::agent::{CHECKED, PAID};
use crate::gate::{gate_side, request};
use crate::sides::{Books, CLOCK, Gates, Lent, LentBook, PutBack, START, TODAY, Touched, payment};
use crate::stopwatch::{Side, Stopwatch, side};
use compare::sides::{self, book_rows, table_rows};
use compare::texts::{good_registry, payment_request};
use roosteryore::{Action, Gate};
use std::hint::black_box;
use twin::request as asked;

/// Requests and registries at a gate without accounts and records, answers at a book of one entry.
pub fn readers(stopwatch: &mut Stopwatch) {
    stopwatch.table("Readers: a text that is read, less one that is refused at once", false);
    let gates = Gates::new(0, 0, 16, |_| TODAY, |_| true);
    let too_long = [b'x'; 2049];
    let paid = payment_request(&payment(7, 16, TODAY));
    let status = "action=status&receipt=100000021";
    let coded = format!("{status}&coded={}", "%7E".repeat(670));
    for (name, text) in [("a payment", &paid[..]), ("a status", status), ("2,048 coded bytes", &coded)] {
        let sides = |text| request(&gates, text);
        stopwatch.difference(&format!("request, {name}"), sides(text.as_bytes()), sides(&too_long));
    }
    let books = frozen();
    let check = (Action::Check, asked::Action::Check);
    let pay = (Action::Payment, asked::Action::Payment);
    for (name, action, text) in [("a check's", check, CHECKED), ("a payment's", pay, PAID)] {
        let sides = |text| take_answer(&books, action, text);
        stopwatch.difference(&format!("answer, {name}"), sides(text), sides(b"?"));
    }
    let lines = good_registry((0..512).map(|place| payment(place, 256, START)));
    let sides = |text| settle(&gates, text);
    stopwatch.difference("registry, 512 lines", sides(&lines), sides(b"?"));
}

/// A book of one payment whose day is frozen: an answer moves nothing, so that reading it is all.
fn frozen() -> Books {
    let mut books = Books::new(1, 16, |_| TODAY);
    books.proved.freeze(TODAY).expect("the next day");
    books.lent.head = sides::book_head(&books.proved.head);
    books
}

/// An answer to the one payment of a book.
fn take_answer<'a>(books: &'a Books, action: (Action, asked::Action), text: &'a [u8]) -> Vec<Side<'a>> {
    let receipt = books.proved.head.first;
    vec![
        book_side(&books.proved, move |book| book.take_answer(action.0, receipt, black_box(text))),
        book_side(&books.lent, move |LentBook { head, entries }| {
            head.take_answer(book_rows(entries), action.1, receipt, black_box(text))
        }),
    ]
}

fn book_side<'a, S: PutBack + Clone, R>(from: &'a S, call: impl FnMut(&mut S) -> R + 'a) -> Side<'a> {
    side(from.clone(), |book: &mut S| book.put_back(from, Touched::Nothing), call)
}

/// A registry of the day that is closed already: its lines are only reported.
fn settle<'a>(gates: &'a Gates, lines: &'a [u8]) -> Vec<Side<'a>> {
    vec![
        gate_side(&gates.proved, Touched::Nothing, |gate: &mut Gate, out| {
            gate.settle(CLOCK, START, black_box(lines), out).map(<[u8]>::len)
        }),
        gate_side(&gates.lent, Touched::Nothing, |Lent { head, table }, out| {
            head.settle(table_rows(table), CLOCK, sides::day(START), black_box(lines), out)
        }),
    ]
}
