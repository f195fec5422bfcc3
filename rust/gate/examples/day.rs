//! A day at both ends: a payment is accepted, sent, credited and settled.
use roosteryore::*;

fn main() -> Result<(), Box<dyn std::error::Error>> {
    let (yesterday, today, choir) = (Day::new(2005, 9, 19), Day::new(2005, 9, 20), "account12".parse()?);
    let (mut near, mut far) = ([0; REGISTRY_ROOM], [0; ANSWER_ROOM]);
    let mut gate = Gate::new(yesterday, Table::with_room(256));
    let mut book = Book::new(987_654_321, yesterday, Entries::with_room(256));
    gate.open_account(choir, 1)?;
    let receipt = book.accept(choir, 1, 10_12, b"2005-09-20T15:53:00")?;
    let request = book.write_payment(receipt, &mut near)?;
    let answer = gate.deliver(b"2005-09-20T15:55:00", request, &mut far)?;
    book.take_answer(Action::Payment, receipt, answer.text)?;
    book.freeze(today)?;
    let report = gate.settle(b"2005-09-21T00:10:00", today, book.write_registry(today, &mut near)?, &mut far)?;
    book.take_report(today, report)?;
    assert_eq!(
        (gate.balance(&choir, 1), book.entry(receipt).map(|entry| entry.state)),
        (Some(10_12), Some(State::Credited))
    );
    Ok(())
}
