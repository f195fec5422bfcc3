//! Both forms of the gate's calls, with the accounts lent and with the gate by value: the same code, the same state, the
//! same bytes.
use roosteryore::*;

const TODAY: Day = Day::new(2005, 9, 20);
const CLOCK: &Date = b"2005-09-20T15:55:00";
const MOST: i64 = 10_000_000_000_000;
const STATUS: &str = "action=status&receipt=7";

/// What is changed in a gate, in words and by a function.
type Change = (&'static str, fn(&mut Gate));

/// A gate in both forms.
#[derive(Clone)]
struct Both {
    lent: Gate,
    value: Box<GateValue>,
    table: Table,
}

fn number(text: &str) -> Number {
    text.parse().expect("a number")
}

fn payment(choir: &str, amount: &str, receipt: u64) -> String {
    format!("action=payment&number={choir}&type=1&amount={amount}&receipt={receipt}&date=2005-09-20T15:53:00")
}

fn code(result: Result<(), Fault>) -> u64 {
    result.map_or_else(Fault::code, |()| 0)
}

impl Both {
    fn of(lent: Gate) -> Both {
        Both { value: lent.value(), table: lent.table.clone(), lent }
    }

    /// Two choirs, of which the first has 10 roubles 12 kopecks, and a table of three records.
    fn sample() -> Both {
        let mut both = Both::of(Gate::new(Day::new(2005, 9, 19), Table::with_room(3)));
        assert_eq!([both.open("account12", 1), both.open("account13", 1)], [0, 0]);
        assert_eq!(both.deliver(CLOCK, &payment("account12", "10.12", 7), 512), 0);
        both
    }

    /// The form by value, in columns: these are compared in every bit.
    fn columns(&self) -> Gate {
        let mut gate = Gate { table: self.table.clone(), ..self.lent.clone() };
        gate.put_value(&self.value);
        gate
    }

    /// Takes a step in both forms and gives its code; a fault that is no answer has to keep everything.
    fn step<R: PartialEq + std::fmt::Debug>(
        &mut self,
        lent: impl FnOnce(&mut Gate) -> (u64, R),
        by_value: impl FnOnce(&mut Table, &mut GateValue) -> (u64, R),
    ) -> u64 {
        let before = self.lent.clone();
        let given = lent(&mut self.lent);
        assert_eq!(by_value(&mut self.table, &mut self.value), given);
        assert_eq!(self.columns(), self.lent, "after code {}", given.0);
        assert!(given.0 == 0 || self.lent == before, "code {} has changed something", given.0);
        given.0
    }

    fn open(&mut self, choir: &str, kind: u64) -> u64 {
        let number = number(choir);
        self.step(
            |gate| (code(gate.open_account(number, kind)), ()),
            |table, value| (by_value::open_account(table, value, number, kind), ()),
        )
    }

    fn draw(&mut self, choir: &str, kind: u64, kopecks: u64) -> u64 {
        let number = number(choir);
        self.step(
            |gate| (code(gate.draw_funds(number, kind, kopecks)), ()),
            |table, value| (by_value::draw_funds(table, value, number, kind, kopecks), ()),
        )
    }

    fn deliver(&mut self, clock: &Date, parameters: &str, room: usize) -> u64 {
        let parameters = parameters.as_bytes();
        self.step(
            |gate| {
                let mut out = vec![b'?'; room];
                let (code, size) = match gate.deliver(clock, parameters, &mut out) {
                    Ok(answer) => (answer.code, answer.text.len()),
                    Err(fault) => (fault.code(), 0),
                };
                (code, (size, out))
            },
            |table, value| {
                let mut out = vec![b'?'; room];
                let (code, size) = by_value::deliver(table, value, clock, parameters, &mut out);
                (code, (size, out))
            },
        )
    }

    fn settle(&mut self, day: Day, registry: &str) -> u64 {
        let registry = registry.as_bytes();
        self.step(
            |gate| {
                let mut out = vec![b'?'; REPORT_ROOM];
                let report = gate.settle(CLOCK, day, registry, &mut out).map(<[u8]>::len);
                (code(report.map(|_size| ())), (report.unwrap_or(0), out))
            },
            |table, value| {
                let mut out = vec![b'?'; REPORT_ROOM];
                let (code, size) = by_value::settle(table, value, CLOCK, day, registry, &mut out);
                (code, (size, out))
            },
        )
    }

    /// The codes of an opening, a draw and a status, once something is changed.
    fn codes(&self, change: impl FnOnce(&mut Gate)) -> [u64; 3] {
        let mut lent = self.lent.clone();
        change(&mut lent);
        let both = Both::of(lent);
        [
            both.clone().open("account14", 1),
            both.clone().draw("account12", 1, 1),
            both.clone().deliver(CLOCK, STATUS, ANSWER_ROOM),
        ]
    }
}

#[test]
fn a_day() {
    let mut both = Both::sample();
    assert_eq!(both.open("account12", 1), 56);
    assert_eq!(both.open("account12", 1000), 59);
    assert_eq!(both.draw("account12", 1, 12), 0);
    assert_eq!(both.draw("account12", 1, 1001), 58);
    assert_eq!(both.draw("account12", 1, 0), 58);
    assert_eq!(both.draw("account14", 1, 1), 59);
    for (request, code) in [
        ("action=check&number=account13&type=1&amount=1", 0),
        ("action=check&number=account14&type=1&amount=1", 2),
        ("action=check&number=account13&type=2&amount=1", 2),
        (&payment("account12", "10.12", 7), 0),
        (&payment("account14", "1", 8), 2),
        (&payment("account13", "0", 8), 3),
        (&payment("account13", "5", 8), 0),
        (&payment("account13", "6", 9), 0),
        (&payment("account13", "5", 10), 30),
        (STATUS, 0),
        ("action=status&receipt=11", 6),
        ("action=cancel&receipt=7&mes=1", 9),
        ("action=cancel&receipt=8&mes=9", 32),
        ("action=cancel&receipt=8&mes=1", 0),
        ("action=cancel&receipt=8&mes=1", 0),
        (&payment("account13", "5", 8), 7),
        ("action=status", 4),
        ("action", 31),
        ("", 1),
    ] {
        assert_eq!(both.deliver(CLOCK, request, ANSWER_ROOM), code, "{request}");
    }
    let lines = "account12\t1\t2005-09-20T15:53:00\t10.12\t7\r\naccount13\t1\t2005-09-20T15:53:00\t5\t8\r\n";
    assert_eq!(both.settle(Day::new(2005, 9, 22), ""), 55);
    assert_eq!(both.settle(TODAY, "x"), 52);
    assert_eq!(both.settle(TODAY, lines), 0);
    assert_eq!(both.settle(TODAY, lines), 0, "and reported again");
    assert_eq!(both.deliver(CLOCK, &payment("account12", "10.12", 12), ANSWER_ROOM), 5);
    assert_eq!(both.draw("account12", 1, 1000), 0);
    let balances: Vec<i64> = both.lent.accounts().map(|account| account.balance).collect();
    assert_eq!((balances, both.lent.head.closed), (vec![0, 500], TODAY));
}

#[test]
fn what_is_looked_at_before_a_request() {
    let mut both = Both::sample();
    for room in [0, 511] {
        assert_eq!(both.deliver(CLOCK, STATUS, room), 50, "{room} bytes");
    }
    for clock in [b"2005-02-29T00:00:00", b"1999-12-31T23:59:59", b"2005-09-20 15:55:00", &[0; 19]] {
        assert_eq!(both.deliver(clock, STATUS, ANSWER_ROOM), 51, "{}", clock.escape_ascii());
    }
    assert_eq!(both.deliver(&[0; 19], STATUS, 511), 50, "the buffer first");
    both.lent.head.count = 257;
    assert_eq!(Both::of(both.lent).deliver(&[0; 19], STATUS, 511), 68, "and what is lent before it");
}

#[test]
fn accounts_up_to_257() {
    let mut both = Both::of(Gate::new(TODAY, Table::with_room(1)));
    for place in 0..ACCOUNTS_MOST {
        assert_eq!(both.open(&format!("choir-{place}"), 7), 0);
    }
    assert_eq!(both.open("choir-256", 7), 57);
    assert_eq!(both.draw("choir-255", 7, 1), 58);
}

#[test]
fn what_is_unsound() {
    let both = Both::sample();
    assert_eq!(both.codes(|_| {}), [0, 0, 0]);
    let unsound: [Change; 18] = [
        ("257 accounts", |gate| gate.head.count = 257),
        ("more accounts than can be", |gate| gate.head.count = usize::MAX),
        ("a record's account that is not open", |gate| gate.head.count = 0),
        ("an empty place that is open", |gate| gate.head.count = 3),
        ("a balance too large", |gate| gate.accounts.balances[1] = MOST + 1),
        ("a balance too small", |gate| gate.accounts.balances[1] = -MOST - 1),
        ("the largest balance", |gate| gate.accounts.balances[1] = i64::MAX),
        ("the smallest balance", |gate| gate.accounts.balances[1] = i64::MIN),
        ("a type too large", |gate| gate.accounts.keys[1][1] = 1000),
        ("no length", |gate| gate.accounts.keys[1][0] = 0),
        ("a length too large", |gate| gate.accounts.keys[1][0] = 31),
        ("the largest length", |gate| gate.accounts.keys[1][0] = u64::MAX),
        ("a blank in a number", |gate| gate.accounts.names[1][0] = b' '),
        ("a closed day that is none", |gate| gate.head.closed.day = 31),
        ("more records than are lent", |gate| gate.head.used = 4),
        ("a state that is none", |gate| gate.table.nums[0][4] = 3),
        ("rows of two lengths", |gate| gate.table.dates.truncate(2)),
        ("no rows", |gate| gate.table = Table::with_room(0)),
    ];
    for (what, change) in unsound {
        assert_eq!(both.codes(change), [68, 68, 68], "{what}");
    }
}

#[test]
fn what_is_not_refused() {
    let both = Both::sample();
    let sound: [Change; 5] = [
        ("the largest balance that may be", |gate| gate.accounts.balances[1] = MOST),
        ("the smallest", |gate| gate.accounts.balances[1] = -MOST),
        ("an account open twice", |gate| gate.accounts.names[1] = gate.accounts.names[0]),
        ("a byte past a number", |gate| gate.accounts.names[1][29] = 0xFF),
        ("accounts that are not open", |gate| {
            (gate.accounts.names[3], gate.accounts.keys[3], gate.accounts.balances[3]) = ([7; 30], [99; 2], i64::MIN);
        }),
    ];
    for (what, change) in sound {
        assert_eq!(both.codes(change), [0, 0, 0], "{what}");
    }
}
