//! The gate's calls.
use crate::sides::{CLOCK, Gates, Lent, PutBack, START, TODAY, Touched, Whole, choir, payment};
use crate::stopwatch::{Side, Stopwatch, side};
use compare::sides::{self, table_rows};
use compare::texts::good_registry;
use roosteryore::{Day, Gate, ROWS_MOST, by_value};
use std::hint::black_box;

type Owned = twin::owned::Gate;

/// A side of a gate with its buffer: put back before each call, and the buffer cleared.
pub fn gate_side<'a, S: PutBack + Clone, R>(
    from: &'a S,
    touched: Touched,
    mut call: impl FnMut(&mut S, &mut [u8; 512]) -> R + 'a,
) -> Side<'a> {
    let restore = move |(state, out): &mut (S, [u8; 512])| {
        state.put_back(from, touched);
        out.fill(0);
    };
    side((from.clone(), [0; 512]), restore, move |(state, out)| call(state, out))
}

/// A request on all sides.
fn deliver<'a>(gates: &'a Gates, touched: Touched, request: &'a [u8]) -> Vec<Side<'a>> {
    let mut out = [0; 512];
    gates.proved.clone().deliver(CLOCK, request, &mut out).expect("the request is answered");
    vec![
        gate_side(&gates.proved, touched, |gate: &mut Gate, out| {
            gate.deliver(CLOCK, black_box(request), out).map(|answer| answer.code)
        }),
        gate_side(&gates.lent, touched, |Lent { head, table }, out| {
            head.deliver(table_rows(table), CLOCK, black_box(request), out)
        }),
        gate_side(&gates.owned, touched, |gate: &mut Owned, out| gate.deliver(CLOCK, black_box(request), out)),
    ]
}

/// A request on the proved side and the twin's, whatever the code.
pub fn request<'a>(gates: &'a Gates, request: &'a [u8]) -> Vec<Side<'a>> {
    vec![
        gate_side(&gates.proved, Touched::Nothing, |gate: &mut Gate, out| {
            gate.deliver(CLOCK, black_box(request), out).map(|answer| answer.code)
        }),
        gate_side(&gates.lent, Touched::Nothing, |Lent { head, table }, out| {
            head.deliver(table_rows(table), CLOCK, black_box(request), out)
        }),
    ]
}

/// The same sides, but that the proved gate goes in and comes back by value.
fn by_value<'a>(mut sides: Vec<Side<'a>>, whole: &'a Whole, request: &'a [u8]) -> Vec<Side<'a>> {
    sides[0] = gate_side(whole, Touched::Nothing, |Whole { gate, table }, out| {
        by_value::deliver(table, gate, CLOCK, black_box(request), out)
    });
    sides
}

/// What it costs alone that a gate goes in and comes back by value: one that is refused at its first number.
pub fn refused(stopwatch: &mut Stopwatch) {
    stopwatch.table("A gate of 257 accounts, refused at once", false);
    let mut gates = Gates::new(1, 0, 16, |_| TODAY, |_| true);
    (gates.proved.head.count, gates.lent.head.count) = (257, 257);
    let (whole, status) = (Whole::of(&gates.proved), b"action=status&receipt=1");
    stopwatch.row("deliver, the gate by value", by_value(request(&gates, status), &whole, status));
}

/// Each call once, with 256 records and 16 accounts.
pub fn calls(stopwatch: &mut Stopwatch) {
    stopwatch.table("Calls of the gate, 256 records in use, 16 accounts", true);
    let gates = Gates::new(16, 256, ROWS_MOST, |_| TODAY, |_| true);
    let (number, new) = (choir(3), choir(300));
    stopwatch.row(
        "open_account",
        vec![
            gate_side(&gates.proved, Touched::Nothing, move |gate: &mut Gate, _| gate.open_account(new, 1)),
            gate_side(&gates.lent, Touched::Nothing, move |Lent { head, table }, _| {
                head.open(table_rows(table), sides::number(new), 1)
            }),
            gate_side(&gates.owned, Touched::All, move |gate: &mut Owned, _| gate.open(sides::number(new), 1)),
        ],
    );
    stopwatch.row(
        "draw_funds",
        vec![
            gate_side(&gates.proved, Touched::Nothing, move |gate: &mut Gate, _| gate.draw_funds(number, 1, 12)),
            gate_side(&gates.lent, Touched::Nothing, move |Lent { head, table }, _| {
                head.draw(table_rows(table), sides::number(number), 1, 12)
            }),
            gate_side(&gates.owned, Touched::All, move |gate: &mut Owned, _| gate.draw(sides::number(number), 1, 12)),
        ],
    );
    let last = payment(255, 16, TODAY).receipt;
    let pay = |receipt| {
        format!("action=payment&number={number}&type=1&amount=10.12&receipt={receipt}&date=2005-09-20T15:53:00")
    };
    for (name, touched, request) in [
        ("deliver, a check", Touched::Nothing, format!("action=check&number={number}&type=1&amount=10.12")),
        ("deliver, a new payment", Touched::Row(256), pay(5)),
        ("deliver, a payment again", Touched::Nothing, pay(last)),
        ("deliver, a status", Touched::Nothing, format!("action=status&receipt={last}")),
        ("deliver, a cancel", Touched::Row(255), format!("action=cancel&receipt={last}&mes=1")),
        ("deliver, a bad request", Touched::Nothing, "action=status&receipt=%zz".into()),
    ] {
        stopwatch.row(name, deliver(&gates, touched, request.as_bytes()));
    }
}

/// A status, by records and accounts; with few of both also by value, where the copies are most of it.
pub fn growth(stopwatch: &mut Stopwatch) {
    stopwatch.table("A status delivered, by records in use and accounts", true);
    for used in [16, 256, 1024, 4095] {
        for accounts in [1, 16, 256] {
            let name = format!("{used} records, {accounts} accounts");
            if stopwatch.wants(&name) {
                let (gates, status) = asked_status(used, accounts);
                stopwatch.row(&name, deliver(&gates, Touched::Nothing, status.as_bytes()));
            }
        }
        if used == 16 {
            let (gates, status) = asked_status(used, 16);
            let (whole, status) = (Whole::of(&gates.proved), status.as_bytes());
            let sides = by_value(deliver(&gates, Touched::Nothing, status), &whole, status);
            stopwatch.row("16 records, 16 accounts: deliver, the gate by value", sides);
        }
    }
}

/// A gate with payments of today, and a request for the status of the last.
fn asked_status(used: usize, accounts: usize) -> (Gates, String) {
    let gates = Gates::new(accounts, used, ROWS_MOST, |_| TODAY, |_| true);
    (gates, format!("action=status&receipt={}", payment(used - 1, accounts, TODAY).receipt))
}

/// Where records before this place are of the day that was closed before.
const OLD: usize = 3584;

fn mixed(place: usize) -> Day {
    if place < OLD { START } else { TODAY }
}

/// Settlements of 512 lines against 4,096 records.
pub fn settlements(stopwatch: &mut Stopwatch) {
    const ACCOUNTS: usize = 256;
    stopwatch.table("Settlements with a table of 4,096 records and 256 accounts; the twin sorts and walks", true);
    let (all, none, tail) = (0..ROWS_MOST, 0..0, OLD..ROWS_MOST);
    let gates = |used, day: fn(usize) -> Day, done: fn(usize) -> bool| Gates::new(ACCOUNTS, used, ROWS_MOST, day, done);
    settlement(stopwatch, "512 kept", TODAY, tail.clone(), || gates(ROWS_MOST, mixed, |_| true));
    settlement(stopwatch, "256 restored, 256 kept", TODAY, tail.clone(), || {
        gates(ROWS_MOST, mixed, |place| place % 2 == 0)
    });
    settlement(stopwatch, "512 posted", TODAY, tail.clone(), || gates(OLD, mixed, |_| true));
    settlement(stopwatch, "512 kept, 3,584 swept", TODAY, all.step_by(8), || gates(ROWS_MOST, |_| TODAY, |_| true));
    settlement(stopwatch, "no lines", TODAY, none, || gates(ROWS_MOST, |_| START, |_| true));
    settlement(stopwatch, "512 only reported", START, tail, || gates(ROWS_MOST, |_| START, |_| true));
}

/// Settlements in which all lines are kept, by lines and records.
pub fn settlement_growth(stopwatch: &mut Stopwatch) {
    stopwatch.table("A settlement with every line kept and 256 accounts, by lines and records in use", true);
    for (lines, used) in [(16, 256), (128, 256), (128, 1024), (512, 1024), (16, 4096), (128, 4096), (512, 4096)] {
        let name = format!("{lines} lines, {used} records");
        settlement(stopwatch, &name, TODAY, used - lines..used, || {
            Gates::new(256, used, ROWS_MOST, move |place| if place < used - lines { START } else { TODAY }, |_| true)
        });
    }
}

fn settlement(
    stopwatch: &mut Stopwatch,
    name: &str,
    day: Day,
    listed: impl Iterator<Item = usize>,
    gates: impl FnOnce() -> Gates,
) {
    if !stopwatch.wants(name) {
        return;
    }
    let gates = gates();
    let text = good_registry(listed.map(|place| payment(place, 256, day)));
    let (text, twin_day) = (&text[..], sides::day(day));
    gates.proved.clone().settle(CLOCK, day, text, &mut [0; 512]).expect("the registry is good");
    stopwatch.row(
        name,
        vec![
            gate_side(&gates.proved, Touched::All, |gate: &mut Gate, out| {
                gate.settle(CLOCK, day, black_box(text), out).map(<[u8]>::len)
            }),
            gate_side(&gates.lent, Touched::All, |Lent { head, table }, out| {
                head.settle(table_rows(table), CLOCK, twin_day, black_box(text), out)
            }),
            gate_side(&gates.owned, Touched::All, |gate: &mut Owned, out| {
                gate.settle(CLOCK, twin_day, black_box(text), out)
            }),
        ],
    );
}
