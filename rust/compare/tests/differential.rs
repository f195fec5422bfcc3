//! The proved calls against the twin: random scripts, and the largest tables, books and registries.
//!
//! `COMPARE_SCRIPTS` sets how many scripts each test runs, `COMPARE_SEED` the seed of the first; a failing one is
//! printed, cut down.
use chance::Chance;
use compare::books::{self, Books};
use compare::gates::{self, Gates};
use compare::script::{Codes, Pair, run};
use compare::sides::{Buffer, Text};
use compare::texts;
use roosteryore::{Date, Day, Payment, ROWS_MOST};

/// Steps of a script.
const STEPS: usize = 60;
const START: Day = Day::new(2005, 9, 19);
const TODAY: Day = Day::new(2005, 9, 20);
const CLOCK: &Date = b"2005-09-20T15:55:00";

fn variable(name: &str, default: u64) -> u64 {
    std::env::var(name).map_or(default, |value| value.parse().unwrap_or_else(|_| panic!("{name}={value} is no number")))
}

/// Runs the scripts; where there are enough of them, each of these codes has to be met.
fn scripts<P: Pair>(what: &str, default: u64, expected: &[u64]) {
    let (first, count) = (variable("COMPARE_SEED", 1), variable("COMPARE_SCRIPTS", default));
    let mut codes = Codes::default();
    for seed in first..first + count {
        if let Err(difference) = run::<P>(seed, STEPS, &mut codes) {
            panic!("{what}: {difference}");
        }
    }
    println!("{what}: seeds {first} to {}, codes {codes}", first + count - 1);
    let missing: Vec<&u64> = expected.iter().filter(|&&code| codes.of(code) == 0).collect();
    assert!(count < default || missing.is_empty(), "{what}: never returned: {missing:?}");
}

#[test]
fn gate_scripts() {
    let codes = [0, 1, 2, 3, 4, 5, 6, 7, 9, 30, 31, 32, 50, 51, 52, 54, 55, 56, 58, 59, 68];
    scripts::<Gates>("gate", 3000, &codes);
}

#[test]
fn book_scripts() {
    scripts::<Books>("book", 6000, &[0, 50, 55, 60, 61, 62, 63, 64, 65, 66, 68]);
}

/// Takes a step and gives its code.
fn take<P: Pair>(pair: &mut P, step: P::Step) -> u64 {
    pair.take(&step).unwrap_or_else(|how| panic!("{step:?}\n{how}"))
}

#[test]
fn accounts_up_to_257() {
    let mut gates = Gates::new(START, 1);
    for place in 0..=256 {
        let number = format!("choir-{place}").parse().expect("a number");
        let code = take(&mut gates, gates::Step::Open { number, kind: 7 });
        assert_eq!(code, if place < 256 { 0 } else { 57 });
    }
}

#[test]
fn rooms_from_0_to_4097() {
    for (room, code) in [(0, 68), (1, 0), (ROWS_MOST, 0), (ROWS_MOST + 1, 68)] {
        let open = gates::Step::Open { number: "a".parse().expect("a number"), kind: 1 };
        assert_eq!(take(&mut Gates::new(START, room), open), code, "a table of {room}");
        assert_eq!(take(&mut Books::new(1, START, room), books::Step::Freeze { day: TODAY }), code, "a book of {room}");
    }
}

#[test]
fn a_day_of_513() {
    let mut books = Books::new(1, START, 600);
    let number = "account12".parse().expect("a number");
    for place in 0..513 {
        let code = take(&mut books, books::Step::Accept { number, kind: 1, kopecks: 100, date: *CLOCK });
        assert_eq!(code, if place < 512 { 0 } else { 61 });
    }
    assert_eq!(
        take(&mut books, books::Step::Accept { number, kind: 1, kopecks: 100, date: *b"2005-09-21T00:00:00" }),
        0
    );
    let out = Buffer { room: 65_536, fill: 0xAA };
    assert_eq!(take(&mut books, books::Step::Freeze { day: TODAY }), 0);
    assert_eq!(take(&mut books, books::Step::WriteRegistry { day: TODAY, out }), 0);
    assert_eq!(take(&mut books, books::Step::TakeReport { day: TODAY, marks: Text(vec![b'1'; 512]) }), 0);
    // the 513th entry moves to the day of the others
    assert_eq!(take(&mut books, books::Step::Spoil(books::Spoil::DateByte { place: 512, at: 9, byte: b'0' })), 0);
    assert_eq!(take(&mut books, books::Step::WriteRegistry { day: TODAY, out }), 68);
}

/// The payment at a place of a large table.
fn payment(place: usize, day: Day) -> Payment {
    let chance = &mut Chance::new(place as u64);
    Payment {
        receipt: 10 + 3 * place as u64,
        number: format!("choir-{}", place % 7).parse().expect("a number"),
        kind: 1,
        kopecks: texts::kopecks(chance) % 1_000_000 + 1,
        date: texts::date_on(chance, day),
    }
}

/// A gate with seven accounts and so many payments of a day.
fn large_gate(used: usize, room: usize, day: Day) -> Gates {
    let mut gates = Gates::new(START, room);
    for choir in 0..7 {
        let number = format!("choir-{choir}").parse().expect("a number");
        assert_eq!(take(&mut gates, gates::Step::Open { number, kind: 1 }), 0);
    }
    for place in 0..used {
        let parameters = Text(texts::payment_request(&payment(place, day)).into());
        let out = Buffer { room: 512, fill: 0 };
        let code = take(&mut gates, gates::Step::Deliver { clock: *CLOCK, parameters, out });
        assert_eq!(code, 0);
    }
    gates
}

fn registry(payments: impl Iterator<Item = Payment>) -> Text {
    Text(texts::good_registry(payments))
}

fn settle(gates: &mut Gates, registry: Text) -> u64 {
    let out = Buffer { room: 512, fill: 0xAA };
    take(gates, gates::Step::Settle { clock: *CLOCK, day: TODAY, registry, out })
}

#[test]
fn registries_up_to_514_lines() {
    for (lines, code) in [(511, 0), (512, 0), (513, 53), (514, 53)] {
        let mut gates = large_gate(100, 400, TODAY);
        assert_eq!(settle(&mut gates, registry((50..50 + lines).map(|place| payment(place, TODAY)))), code);
    }
}

#[test]
fn a_large_table_is_settled() {
    let mut gates = large_gate(700, 800, TODAY);
    let listed = || (0..1536).step_by(3).map(|place| payment(place, TODAY));
    assert_eq!(settle(&mut gates, registry(listed())), 0);
    assert_eq!(settle(&mut gates, registry(listed())), 0, "and reported again");
}

#[test]
fn one_payment_recorded_twice() {
    // the second record becomes the first one's double; either may be cancelled before
    for cancelled in [None, Some(0), Some(1)] {
        let mut gates = large_gate(2, 4, TODAY);
        if let Some(place) = cancelled {
            let parameters = Text(format!("action=cancel&receipt={}&mes=1", payment(place, TODAY).receipt).into());
            let out = Buffer { room: 512, fill: 0 };
            assert_eq!(take(&mut gates, gates::Step::Deliver { clock: *CLOCK, parameters, out }), 0);
        }
        assert_eq!(take(&mut gates, gates::Step::Spoil(gates::Spoil::Payment { place: 1, other: 0 })), 0);
        assert_eq!(settle(&mut gates, registry([payment(0, TODAY)].into_iter())), 0);
        assert!(
            gates.proved.records().all(|record| record.done) != (cancelled == Some(1)),
            "the first one is restored"
        );
    }
}
