//! Demand 3, progress: what could be done next, tried on copies of both ends.
use crate::world::{Message, World};
use compare::texts::next_day;
use roosteryore::{
    ANSWER_ROOM, Action, Book, Date, Day, Entry, Fault, Gate, Payment, REGISTRY_ROOM, REPORT_ROOM, REQUEST_ROOM, State,
};
use std::collections::HashMap;

/// Whether all that should be possible next is.
///
/// # Errors
/// The first sentence that does not hold.
pub fn check(world: &World, clock: &Date) -> Result<(), String> {
    pays(world, clock).map_err(|how| format!("an asked payment that the gate gets is credited: {how}"))?;
    if !world.settled.contains(&world.book.head.frozen) {
        let settled = settles(world, clock).map_err(|fault| format!("a frozen day can be settled: {fault}"))?;
        if !settled {
            return Err("a frozen day is settled by its report: the book says that it is not".into());
        }
    } else if next_day(world.book.head.frozen) != world.book.head.frozen {
        freezes(world).map_err(|fault| format!("after a settled day the next can be frozen: {fault}"))?;
    }
    Ok(())
}

/// The texts of the payment requests that were sent, by receipt.
fn requests(world: &World) -> HashMap<u64, &[u8]> {
    let request = |message| match message {
        &Message::Request { action: Action::Payment, receipt, ref text } => Some((receipt, &text[..])),
        _ => None,
    };
    world.sent.iter().filter_map(request).collect()
}

fn pays(world: &World, clock: &Date) -> Result<(), String> {
    let requests = requests(world);
    for Entry { payment, state, .. } in world.book.entries() {
        if state != State::Asked || day_of(&payment) <= world.book.head.frozen {
            continue;
        }
        let mut book = world.book.clone();
        let written = book.write_payment(payment.receipt, &mut [0; REQUEST_ROOM]).map(|_text| ());
        written.map_err(|fault| format!("receipt {}: it cannot be written: {fault}", payment.receipt))?;
        if let Some(text) = requests.get(&payment.receipt).filter(|_| may_be_paid(&world.gate, &payment)) {
            let state = paid(world.gate.clone(), book, &payment, clock, text);
            if state != Ok(Some(State::Credited)) {
                return Err(format!("receipt {} is {state:?}", payment.receipt));
            }
        }
    }
    Ok(())
}

fn day_of(payment: &Payment) -> Day {
    payment.day().expect("a payment in the book has a date")
}

/// Whether the account is known, the day open at the gate, and a record free or there.
fn may_be_paid(gate: &Gate, payment: &Payment) -> bool {
    gate.balance(&payment.number, payment.kind).is_some()
        && day_of(payment) > gate.head.closed
        && (gate.head.used < gate.table.nums.len() || gate.records().any(|r| r.payment.receipt == payment.receipt))
}

/// The state of a payment once its request and then the answer were delivered.
fn paid(mut gate: Gate, mut book: Book, payment: &Payment, clock: &Date, text: &[u8]) -> Result<Option<State>, Fault> {
    let mut out = [0; ANSWER_ROOM];
    let answer = gate.deliver(clock, text, &mut out)?;
    book.take_answer(Action::Payment, payment.receipt, answer.text)?;
    Ok(book.entry(payment.receipt).map(|entry| entry.state))
}

fn freezes(world: &World) -> Result<(), Fault> {
    let mut book = world.book.clone();
    book.freeze(next_day(world.book.head.frozen))
}

/// The frozen day's registry is written and delivered, then its report: whether the book has the day settled.
fn settles(world: &World, clock: &Date) -> Result<bool, Fault> {
    let (mut gate, mut book) = (world.gate.clone(), world.book.clone());
    let (mut registry, mut report) = (vec![0; REGISTRY_ROOM], [0; REPORT_ROOM]);
    let day = book.head.frozen;
    let lines = book.write_registry(day, &mut registry)?;
    let marks = gate.settle(clock, day, lines, &mut report)?;
    book.take_report(day, marks)?;
    Ok(book.head.settled && book.head.frozen == day)
}

#[cfg(test)]
mod tests {
    use super::*;
    use crate::world::Step;

    const CLOCK: &Date = b"2005-09-20T15:55:00";

    /// A payment that is asked, its request sent.
    fn world() -> World {
        let mut world = World::new(Day::new(2005, 9, 19), 7, 2, 2);
        let number = "account12".parse().expect("a number");
        assert_eq!(world.take(&Step::Open { number, kind: 1 }), 0);
        assert_eq!(world.take(&Step::Accept { number, kind: 1, kopecks: 1012, date: *CLOCK }), 0);
        assert_eq!(world.take(&Step::WritePayment { receipt: 7, room: REQUEST_ROOM }), 0);
        world
    }

    #[test]
    fn a_world_that_can_go_on() {
        assert_eq!(check(&world(), CLOCK), Ok(()));
    }

    #[test]
    fn a_request_that_the_gate_cannot_read() {
        let mut world = world();
        world.sent[0] = Message::Request { action: Action::Payment, receipt: 7, text: b"action=pay".to_vec() };
        assert!(check(&world, CLOCK).unwrap_err().starts_with("an asked payment"));
    }

    #[test]
    fn a_settled_day_after_which_none_can_be_frozen() {
        let mut world = world();
        world.book.head.settled = false;
        assert!(check(&world, CLOCK).unwrap_err().starts_with("after a settled day"));
    }

    #[test]
    fn a_frozen_day_that_cannot_be_settled() {
        let mut world = world();
        assert_eq!(world.take(&Step::Freeze { day: Day::new(2005, 9, 20) }), 0);
        assert_eq!(check(&world, CLOCK), Ok(()));
        assert!(check(&world, b"no clock at all, no").unwrap_err().starts_with("a frozen day"));
    }
}
