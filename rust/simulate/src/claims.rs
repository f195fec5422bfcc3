//! Demand 3, safety: what holds after every step, read off the real rows.
use crate::world::World;
use roosteryore::{Day, Entry, Number, Payment, Record, State};
use std::collections::{BTreeMap, HashMap, HashSet};

/// A sentence of the demand: its name, and how it does not hold where it does not.
pub type Sentence = (&'static str, fn(&World) -> Option<String>);

/// The sentences in the order of the demand.
pub const SENTENCES: [Sentence; 8] = [
    ("a payment number has one record", once),
    ("no account is open twice", accounts_once),
    ("each record's account is open", opened),
    ("a balance is the account's done payments less its draws", balances),
    ("the table agrees with what the book calls credited, cancelled or unposted", says),
    ("on a settled day both have one list", lists),
    ("on a settled day both have one total", totals),
    ("on a settled day every payment is final", finals),
];

/// Whether all sentences hold; if not, which one and how.
///
/// # Errors
/// The first sentence that does not hold.
pub fn check(world: &World) -> Result<(), String> {
    SENTENCES.iter().try_for_each(|(name, broken)| match broken(world) {
        Some(how) => Err(format!("{name}: {how}")),
        None => Ok(()),
    })
}

/// An account's name: the bytes that count, and the type.
fn name(number: &Number, kind: u64) -> (Vec<u8>, u64) {
    (number.as_bytes().to_vec(), kind)
}

fn once(world: &World) -> Option<String> {
    let mut seen = HashSet::new();
    world
        .gate
        .records()
        .map(|record| record.payment.receipt)
        .find(|&receipt| !seen.insert(receipt))
        .map(|receipt| format!("receipt {receipt} is recorded twice"))
}

fn accounts_once(world: &World) -> Option<String> {
    let mut seen = HashSet::new();
    let again = world.gate.accounts().find(|account| !seen.insert(name(&account.number, account.kind)));
    again.map(|account| format!("{} of type {} is open twice", account.number, account.kind))
}

fn opened(world: &World) -> Option<String> {
    let open: HashSet<_> = world.gate.accounts().map(|account| name(&account.number, account.kind)).collect();
    let lone = world.gate.records().find(|r| !open.contains(&name(&r.payment.number, r.payment.kind)));
    lone.map(|record| format!("receipt {} has no account", record.payment.receipt))
}

fn balances(world: &World) -> Option<String> {
    let mut sums: HashMap<_, i128> = HashMap::new();
    for Record { payment, done, .. } in world.gate.records() {
        *sums.entry(name(&payment.number, payment.kind)).or_default() += i128::from(payment.kopecks) * i128::from(done);
    }
    for draw in &world.draws {
        *sums.entry(name(&draw.number, draw.kind)).or_default() -= i128::from(draw.kopecks);
    }
    world.gate.accounts().find_map(|account| {
        let sum = sums.get(&name(&account.number, account.kind)).copied().unwrap_or(0);
        (sum != i128::from(account.balance))
            .then(|| format!("{} has {} kopecks and not {sum}", account.number, account.balance))
    })
}

fn says(world: &World) -> Option<String> {
    let records: HashMap<u64, Record> = world.gate.records().map(|record| (record.payment.receipt, record)).collect();
    world.book.entries().find_map(|Entry { payment, state, .. }| {
        let record = records.get(&payment.receipt);
        let has = |done| record.is_some_and(|record| record.payment == payment && record.done == done);
        let agrees = match state {
            State::Credited => has(true),
            State::Cancelled => has(false),
            State::Unposted => record.is_none(),
            State::Asked | State::CancelAsked => true,
        };
        (!agrees).then(|| format!("receipt {} is {state:?} in the book, and the table has {record:?}", payment.receipt))
    })
}

/// The payments that the book calls credited, by day and rising receipt.
pub fn credited(world: &World) -> Days {
    by_day(world.book.entries().filter(|entry| entry.state == State::Credited).map(|entry| entry.payment))
}

/// The payments that are done in the table, by day and rising receipt.
pub fn done(world: &World) -> Days {
    by_day(world.gate.records().filter(|record| record.done).map(|record| record.payment))
}

/// Payments by their day, each day's by rising receipt.
pub type Days = BTreeMap<Day, Vec<Payment>>;

fn by_day(payments: impl Iterator<Item = Payment>) -> Days {
    let mut days = Days::new();
    for payment in payments {
        if let Some(day) = payment.day() {
            days.entry(day).or_default().push(payment);
        }
    }
    days.values_mut().for_each(|payments| payments.sort_by_key(|payment| payment.receipt));
    days
}

/// What a day's payments come to, in kopecks.
pub fn total(payments: Option<&Vec<Payment>>) -> u64 {
    payments.into_iter().flatten().map(|payment| payment.kopecks).sum()
}

fn lists(world: &World) -> Option<String> {
    on_settled_days(world, |credited, done| {
        (credited != done).then(|| format!("the book has {credited:?}, the table {done:?}"))
    })
}

fn totals(world: &World) -> Option<String> {
    on_settled_days(world, |credited, done| {
        let (credited, done) = (total(credited), total(done));
        (credited != done).then(|| format!("the book has {credited} kopecks, the table {done}"))
    })
}

/// How a settled day's credited and done payments are not as they should be, with that day.
fn on_settled_days(
    world: &World,
    broken: impl Fn(Option<&Vec<Payment>>, Option<&Vec<Payment>>) -> Option<String>,
) -> Option<String> {
    let (credited, done) = (credited(world), done(world));
    world.settled.iter().find_map(|day| Some(format!("{day}: {}", broken(credited.get(day), done.get(day))?)))
}

fn finals(world: &World) -> Option<String> {
    let waits = |state| matches!(state, State::Asked | State::CancelAsked);
    let settled = |payment: &Payment| payment.day().is_some_and(|day| world.settled.contains(&day));
    let entry = world.book.entries().find(|entry| waits(entry.state) && settled(&entry.payment));
    entry.map(|entry| format!("receipt {} is {:?}", entry.payment.receipt, entry.state))
}

#[cfg(test)]
mod tests {
    use super::*;
    use crate::world::{Draw, Step};
    use roosteryore::Action;

    const TODAY: Day = Day::new(2005, 9, 20);

    /// Two choirs; a payment of each, credited at both ends, on a day that is settled; something drawn.
    fn world() -> World {
        let mut world = World::new(Day::new(2005, 9, 19), 7, 4, 4);
        let clock = *b"2005-09-20T15:55:00";
        let room = roosteryore::REGISTRY_ROOM;
        for (choir, receipt) in [("account12", 7), ("account13", 8)] {
            let number = choir.parse().expect("a number");
            let (kind, kopecks) = (1, 1012);
            assert_eq!(world.take(&Step::Open { number, kind }), 0);
            assert_eq!(world.take(&Step::Accept { number, kind, kopecks, date: clock }), 0);
            assert_eq!(world.take(&Step::WritePayment { receipt, room }), 0);
            assert_eq!(world.take(&Step::Deliver { message: world.sent.len() - 1, clock, room }), 0);
            assert_eq!(world.take(&Step::Deliver { message: world.sent.len() - 1, clock, room }), 0);
            assert_eq!(world.take(&Step::Draw(Draw { number, kind, kopecks: 12 })), 0);
        }
        assert_eq!(world.take(&Step::Freeze { day: TODAY }), 0);
        assert_eq!(world.take(&Step::WriteRegistry { day: TODAY, room }), 0);
        assert_eq!(world.take(&Step::Deliver { message: world.sent.len() - 1, clock, room }), 0);
        assert_eq!(world.take(&Step::Deliver { message: world.sent.len() - 1, clock, room }), 0);
        world
    }

    /// The sentences that do not hold once something is changed.
    fn broken(change: impl Fn(&mut World)) -> Vec<&'static str> {
        let mut world = world();
        assert_eq!(check(&world), Ok(()));
        change(&mut world);
        assert!(check(&world).is_err());
        SENTENCES.iter().filter(|(_, broken)| broken(&world).is_some()).map(|(name, _)| *name).collect()
    }

    /// The names of the sentences at these places.
    fn at(places: &[usize]) -> Vec<&'static str> {
        places.iter().map(|&place| SENTENCES[place].0).collect()
    }

    #[test]
    fn the_day_is_one_list_at_both_ends() {
        let world = world();
        assert_eq!(credited(&world)[&TODAY].len(), 2);
        assert_eq!((total(credited(&world).get(&TODAY)), total(done(&world).get(&TODAY))), (2024, 2024));
        assert!(matches!(world.sent[0], crate::world::Message::Request { action: Action::Payment, .. }));
    }

    #[test]
    fn a_receipt_recorded_twice() {
        assert!(broken(|world| world.gate.table.nums[1][0] = 7).contains(&SENTENCES[0].0));
    }

    #[test]
    fn an_account_open_twice() {
        let twice = |world: &mut World| {
            let accounts = &mut world.gate.accounts;
            (accounts.names[1], accounts.keys[1]) = (accounts.names[0], accounts.keys[0]);
        };
        assert!(broken(twice).contains(&SENTENCES[1].0));
    }

    #[test]
    fn a_record_without_an_account() {
        assert!(broken(|world| world.gate.table.nums[1][2] = 2).contains(&SENTENCES[2].0));
    }

    #[test]
    fn a_kopeck_too_many() {
        assert_eq!(broken(|world| world.gate.accounts.balances[1] += 1), at(&[3]));
    }

    #[test]
    fn a_draw_that_is_not_counted() {
        assert_eq!(broken(|world| world.draws.truncate(1)), at(&[3]));
    }

    #[test]
    fn a_credit_that_the_table_does_not_have() {
        // cancelled in the table; the balance follows
        let cancelled = |world: &mut World| {
            world.gate.table.nums[1][4] = 2;
            world.gate.accounts.balances[1] -= 1012;
        };
        assert_eq!(broken(cancelled), at(&[4, 5, 6]));
    }

    #[test]
    fn another_amount_in_the_book() {
        assert_eq!(broken(|world| world.book.rows.nums[1][3] += 1), at(&[4, 5, 6]));
    }

    #[test]
    fn a_payment_that_waits_on_a_settled_day() {
        assert_eq!(broken(|world| world.book.rows.nums[1][4] = 1), at(&[5, 6, 7]));
    }
}
