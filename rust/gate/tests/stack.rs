//! Every call runs within the documented stack. A call that needs more ends the test program.
use roosteryore::*;
use std::thread;

const TODAY: Day = Day::new(2005, 9, 20);
const CLOCK: &Date = b"2005-09-20T15:55:00";

fn run(stack: usize, call: impl FnOnce() + Send + 'static) {
    thread::Builder::new().stack_size(stack).spawn(call).expect("a thread").join().expect("the call returns");
}

/// A book of a frozen day with 512 entries, all asked.
fn full_day() -> Book {
    let mut book = Book::new(1, Day::new(2005, 9, 19), Entries::with_room(ROWS_MOST));
    for _ in 0..512 {
        book.accept(choir(), 1, 100, CLOCK).unwrap();
    }
    book.freeze(TODAY).unwrap();
    book
}

fn choir() -> Number {
    "account12".parse().unwrap()
}

fn gate() -> Gate {
    let mut gate = Gate::new(Day::new(2005, 9, 19), Table::with_room(ROWS_MOST));
    gate.open_account(choir(), 1).unwrap();
    gate
}

const REQUEST: &[u8] = b"action=payment&number=account12&amount=1&receipt=1&date=2005-09-20T15:53:00";

#[test]
fn calls_of_the_gate() {
    let (mut gate, mut out) = (gate(), vec![0; ANSWER_ROOM]);
    run(STACK, move || {
        let other = "account13".parse().unwrap();
        gate.open_account(other, 1).unwrap();
        assert_eq!(gate.deliver(CLOCK, REQUEST, &mut out).unwrap().code, 0);
        gate.draw_funds(choir(), 1, 100).unwrap();
    });
}

#[test]
fn calls_of_the_gate_by_value() {
    let (mut gate, mut out) = (gate(), vec![0; ANSWER_ROOM]);
    let mut value = gate.value();
    run(STACK, move || {
        let other = "account13".parse().unwrap();
        assert_eq!(by_value::open_account(&gate.table, &mut value, other, 1), 0);
        assert_eq!(by_value::deliver(&mut gate.table, &mut value, CLOCK, REQUEST, &mut out).0, 0);
        assert_eq!(by_value::draw_funds(&gate.table, &mut value, choir(), 1, 100), 0);
    });
}

#[test]
fn a_settlement_of_512_lines() {
    let (mut gate, book) = (gate(), full_day());
    let mut registry = vec![0; REGISTRY_ROOM];
    let mut out = vec![0; REPORT_ROOM];
    run(STACK, move || {
        let lines = book.write_registry(TODAY, &mut registry).unwrap();
        assert_eq!(gate.settle(CLOCK, TODAY, lines, &mut out).unwrap(), [b'1'; 512]);
    });
}

#[test]
fn calls_of_the_agent() {
    let (mut book, mut out) = (Book::new(1, Day::new(2005, 9, 19), Entries::with_room(4)), vec![0; REGISTRY_ROOM]);
    run(STACK, move || {
        let receipt = book.accept(choir(), 1, 100, CLOCK).unwrap();
        book.write_check(choir(), 1, 100, &mut out).unwrap();
        book.write_payment(receipt, &mut out).unwrap();
        book.write_status(receipt, &mut out).unwrap();
        book.write_cancel(receipt, 1, &mut out).unwrap();
        assert_eq!(book.take_answer(Action::Cancel, receipt, b""), Err(Fault::Unreadable));
        book.freeze(TODAY).unwrap();
        book.write_registry(TODAY, &mut out).unwrap();
        book.take_report(TODAY, b"1").unwrap();
    });
}

/// Above 512 entries a book is counted by days, which takes the most stack of the agent's calls.
#[test]
fn a_book_of_more_than_512_entries() {
    let (mut book, mut out) = (full_day(), vec![0; REGISTRY_ROOM]);
    run(STACK, move || {
        for _ in 0..2 {
            book.accept(choir(), 1, 100, b"2005-09-21T09:00:00").unwrap();
        }
        book.write_registry(TODAY, &mut out).unwrap();
    });
}
