//! The gate: the proved one in both of its forms, the twin over lent rows, and the twin that owns its state.
use crate::script::Pair;
use crate::sides::{self, Buffer, Outcome, Text};
use crate::texts;
use chance::Chance;
use roosteryore::{Date, Day, Gate, GateValue, Number, Payment, Table, by_value};

/// All sides of a gate.
#[derive(Clone, Debug)]
pub struct Gates {
    /// The proved one, its accounts lent.
    pub proved: Gate,
    /// The proved one by value.
    value: Whole,
    head: twin::lent::Head,
    table: Table,
    /// Only while nothing was spoilt: who owns his state does not check it.
    owned: Option<twin::owned::Gate>,
    /// As all was before it was spoilt.
    sound: Option<Box<Gates>>,
}

/// A gate by value, and its table.
#[derive(Clone, Debug)]
struct Whole {
    gate: Box<GateValue>,
    table: Table,
}

/// A step of all sides.
#[derive(Clone, Debug)]
#[allow(missing_docs)]
pub enum Step {
    Open { number: Number, kind: u64 },
    Draw { number: Number, kind: u64, kopecks: u64 },
    Deliver { clock: Date, parameters: Text, out: Buffer },
    Settle { clock: Date, day: Day, registry: Text, out: Buffer },
    Spoil(Spoil),
    Mend,
}

/// One value changed in what is lent; it may be good still.
#[derive(Clone, Debug)]
#[allow(missing_docs)]
pub enum Spoil {
    Count(usize),
    Used(usize),
    Closed(Day),
    Balance {
        account: usize,
        kopecks: i64,
    },
    Kind {
        account: usize,
        kind: u64,
    },
    Len {
        account: usize,
        len: u64,
    },
    Twice {
        account: usize,
        other: usize,
    },
    Num {
        place: usize,
        column: usize,
        value: u64,
    },
    NumberByte {
        place: usize,
        at: usize,
        byte: u8,
    },
    DateByte {
        place: usize,
        which: usize,
        at: usize,
        byte: u8,
    },
    Date {
        place: usize,
        which: usize,
        date: Date,
    },
    /// The same payment twice, each with its own state.
    Payment {
        place: usize,
        other: usize,
    },
    FewerDates,
    MoreNumbers,
    NoRows,
}

impl Gates {
    /// All sides without accounts, with a table of so many records.
    pub fn new(closed: Day, room: usize) -> Gates {
        let proved = Gate::new(closed, Table::with_room(room));
        let head = sides::gate_head(&proved);
        let owned = (1..=roosteryore::ROWS_MOST).contains(&room);
        Gates {
            value: Whole::of(&proved),
            head,
            table: proved.table.clone(),
            owned: owned.then(|| twin::owned::Gate::new(sides::day(closed), room)),
            proved,
            sound: None,
        }
    }

    fn proved_takes(&mut self, step: &Step) -> Outcome {
        let gate = &mut self.proved;
        match step {
            Step::Open { number, kind } => Outcome::bare(sides::code(gate.open_account(*number, *kind))),
            Step::Draw { number, kind, kopecks } => {
                Outcome::bare(sides::code(gate.draw_funds(*number, *kind, *kopecks)))
            }
            Step::Deliver { clock, parameters, out } => {
                Outcome::written(*out, |out| sides::answered(gate.deliver(clock, &parameters.0, out)))
            }
            Step::Settle { clock, day, registry, out } => {
                Outcome::written(*out, |out| sides::written(gate.settle(clock, *day, &registry.0, out)))
            }
            Step::Spoil(_) | Step::Mend => Outcome::bare(0),
        }
    }

    fn lent_takes(&mut self, step: &Step) -> Outcome {
        let (head, rows) = (&mut self.head, sides::table_rows(&mut self.table));
        match step {
            Step::Open { number, kind } => Outcome::bare(head.open(rows, sides::number(*number), *kind)),
            Step::Draw { number, kind, kopecks } => {
                Outcome::bare(head.draw(rows, sides::number(*number), *kind, *kopecks))
            }
            Step::Deliver { clock, parameters, out } => {
                Outcome::written(*out, |out| sized(head.deliver(rows, clock, &parameters.0, out)))
            }
            Step::Settle { clock, day, registry, out } => {
                Outcome::written(*out, |out| sized(head.settle(rows, clock, sides::day(*day), &registry.0, out)))
            }
            Step::Spoil(_) | Step::Mend => Outcome::bare(0),
        }
    }

    fn owned_takes(&mut self, step: &Step) -> Option<Outcome> {
        let gate = self.owned.as_mut()?;
        Some(match step {
            Step::Open { number, kind } => Outcome::bare(gate.open(sides::number(*number), *kind)),
            Step::Draw { number, kind, kopecks } => Outcome::bare(gate.draw(sides::number(*number), *kind, *kopecks)),
            Step::Deliver { clock, parameters, out } => {
                Outcome::written(*out, |out| sized(gate.deliver(clock, &parameters.0, out)))
            }
            Step::Settle { clock, day, registry, out } => {
                Outcome::written(*out, |out| sized(gate.settle(clock, sides::day(*day), &registry.0, out)))
            }
            Step::Spoil(_) | Step::Mend => Outcome::bare(0),
        })
    }

    fn spoil(&mut self, spoil: &Spoil) {
        if self.sound.is_none() {
            self.sound = Some(Box::new(self.clone()));
        }
        apply(&mut self.proved, spoil);
        self.value = Whole::of(&self.proved);
        self.head = sides::gate_head(&self.proved);
        self.table = self.proved.table.clone();
        self.owned = None;
    }

    fn mend(&mut self) {
        if let Some(sound) = self.sound.take() {
            *self = *sound;
        }
    }

    /// How the proved forms differ after a call, if they do.
    fn form_difference(&self, proved: &Outcome, by_value: &Outcome) -> Option<String> {
        let Whole { gate, table } = &self.value;
        if proved != by_value {
            return Some(format!("lent     {proved:?}\nby value {by_value:?}"));
        }
        let same = self.proved.table == *table && sides::same_value(&self.proved, gate);
        (!same).then(|| format!("lent     {:?}\nby value {:?}", self.proved, self.value))
    }

    /// How the sides differ after a call, if they do.
    fn difference(&self, proved: &Outcome, lent: &Outcome, owned: Option<&Outcome>) -> Option<String> {
        if proved != lent {
            return Some(format!("proved {proved:?}\ntwin   {lent:?}"));
        }
        if self.proved.table != self.table {
            return Some(format!("proved {:?}\ntwin   {:?}", self.proved.table, self.table));
        }
        if !sides::same_head(&self.proved, &self.head) {
            return Some(format!("proved {:?}\ntwin   {:?}", self.proved.value(), self.head));
        }
        match owned {
            Some(owned) if owned != lent => Some(format!("lent {lent:?}\nowned {owned:?}")),
            _ => self.owned.as_ref().and_then(|owned| self.owned_difference(owned)),
        }
    }

    fn owned_difference(&self, owned: &twin::owned::Gate) -> Option<String> {
        let balances: Vec<i64> = self.proved.accounts().map(|account| account.balance).collect();
        if owned.balances() != balances {
            return Some(format!("lent balances {balances:?}\nowned {:?}", owned.balances()));
        }
        let same = |(a, b): (roosteryore::Record, &twin::owned::Record)| {
            let (receipt, cancel) = (a.payment.receipt, a.cancel.unwrap_or_default());
            (receipt, a.done, a.credit, cancel) == (b.payment.receipt, b.done, b.credit, b.cancel)
        };
        let alike =
            owned.records().len() == self.proved.head.used && self.proved.records().zip(owned.records()).all(same);
        (!alike).then(|| format!("lent {:?}\nowned {owned:?}", self.table))
    }

    /// A place in use, as far as there is one.
    fn place(&self, chance: &mut Chance) -> usize {
        chance.below(self.proved.head.used.max(1))
    }

    fn choose_spoil(&self, chance: &mut Chance) -> Spoil {
        let open = self.proved.accounts().count().max(1);
        let (place, account) = (self.place(chance), chance.below(open));
        match chance.below(24) {
            0 => Spoil::Count(257),
            1 => Spoil::Used(self.table.nums.len() + chance.below(2)),
            2 => Spoil::Closed(texts::any_day(chance, self.proved.head.closed)),
            3 => {
                let most = 10_000_000_000_000;
                Spoil::Balance {
                    account,
                    kopecks: chance.pick(&[most, -most, most + 1, -most - 1, i64::MIN, i64::MAX]),
                }
            }
            4 => Spoil::Kind { account, kind: chance.pick(&[1000, 2, u64::MAX]) },
            5 => Spoil::Len { account, len: chance.pick(&[0, 31, 1]) },
            6 | 7 => Spoil::Twice { account, other: chance.below(open) },
            8..=12 => {
                let (column, other) = (chance.below(6), self.place(chance));
                let near = self.table.nums.get(other).map_or(0, |nums| nums[column]);
                let values =
                    [near, near, near.wrapping_add(1), 0, 2, 31, 1000, 1_000_000_000, 1_000_000_000_000_000, u64::MAX];
                Spoil::Num { place, column, value: chance.pick(&values) }
            }
            13 => Spoil::NumberByte { place, at: chance.below(30), byte: chance.pick(b"a~ \0") },
            14 => {
                let (which, at) = (chance.below(3), chance.below(19));
                Spoil::DateByte { place, which, at, byte: chance.pick(b"0139-:T\0") }
            }
            15 | 16 => {
                Spoil::Date { place, which: chance.below(3), date: texts::any_date(chance, self.proved.head.closed) }
            }
            17 => Spoil::FewerDates,
            18 => Spoil::MoreNumbers,
            19..=22 => Spoil::Payment { place, other: self.place(chance) },
            _ => Spoil::NoRows,
        }
    }

    /// Payments for a registry of a day, by rising receipts: records of the table, some with another detail, and
    /// others.
    fn listed(&self, chance: &mut Chance, day: Day) -> Vec<Payment> {
        let records: Vec<Payment> = self.proved.records().map(|record| record.payment).collect();
        let mut payments = Vec::new();
        for receipt in 1..=14 {
            let own: Vec<&Payment> = records.iter().filter(|payment| payment.receipt == receipt).collect();
            let mut payment = match own.len() {
                0 => Payment {
                    receipt,
                    number: texts::number(chance),
                    kind: chance.between(0, 1),
                    kopecks: texts::kopecks(chance),
                    date: texts::date_on(chance, day),
                },
                count => *own[chance.below(count)],
            };
            match chance.below(24) {
                0 => payment.kind ^= 1,
                1 => payment.kopecks = texts::kopecks(chance),
                2 => payment.date = texts::date_on(chance, day),
                _ => {}
            }
            let on_day = payment.day() == Some(day) || chance.one_in(30);
            if on_day && !chance.one_in(3) {
                payments.push(payment);
            }
        }
        if chance.one_in(20) && !payments.is_empty() {
            let (a, b) = (chance.below(payments.len()), chance.below(payments.len()));
            payments.swap(a, b);
        }
        payments
    }

    fn choose_settle(&self, chance: &mut Chance, clock: Date, out: Buffer) -> Step {
        let closed = self.proved.head.closed;
        let day = match chance.below(6) {
            0 => texts::any_day(chance, closed),
            1 => closed,
            _ => texts::next_day(closed),
        };
        let payments = if chance.one_in(5) { Vec::new() } else { self.listed(chance, day) };
        Step::Settle { clock, day, registry: Text(texts::registry(chance, &payments)), out }
    }
}

impl Whole {
    fn of(gate: &Gate) -> Whole {
        Whole { gate: gate.value(), table: gate.table.clone() }
    }

    fn takes(&mut self, step: &Step) -> Outcome {
        let Whole { gate, table } = self;
        match step {
            Step::Open { number, kind } => Outcome::bare(by_value::open_account(table, gate, *number, *kind)),
            Step::Draw { number, kind, kopecks } => {
                Outcome::bare(by_value::draw_funds(table, gate, *number, *kind, *kopecks))
            }
            Step::Deliver { clock, parameters, out } => {
                Outcome::written(*out, |out| sized(by_value::deliver(table, gate, clock, &parameters.0, out)))
            }
            Step::Settle { clock, day, registry, out } => {
                Outcome::written(*out, |out| sized(by_value::settle(table, gate, clock, *day, &registry.0, out)))
            }
            Step::Spoil(_) | Step::Mend => Outcome::bare(0),
        }
    }
}

fn sized((code, size): (u64, usize)) -> (u64, u64) {
    (code, size as u64)
}

fn apply(gate: &mut Gate, spoil: &Spoil) {
    let Gate { accounts, head, table } = gate;
    let lent = table.nums.len().min(table.numbers.len()).min(table.dates.len());
    match *spoil {
        Spoil::Count(count) => head.count = count,
        Spoil::Used(used) => head.used = used,
        Spoil::Closed(day) => head.closed = day,
        Spoil::Balance { account, kopecks } => accounts.balances[account] = kopecks,
        Spoil::Kind { account, kind } => accounts.keys[account][1] = kind,
        Spoil::Len { account, len } => accounts.keys[account][0] = len,
        Spoil::Twice { account, other } => {
            (accounts.names[account], accounts.keys[account]) = (accounts.names[other], accounts.keys[other]);
        }
        Spoil::Num { place, column, value } if place < lent => table.nums[place][column] = value,
        Spoil::NumberByte { place, at, byte } if place < lent => table.numbers[place][at] = byte,
        Spoil::DateByte { place, which, at, byte } if place < lent => table.dates[place][which][at] = byte,
        Spoil::Date { place, which, date } if place < lent => table.dates[place][which] = date,
        Spoil::Payment { place, other } if place.max(other) < lent => {
            let nums = table.nums[other];
            table.nums[place][..4].copy_from_slice(&nums[..4]);
            table.numbers[place] = table.numbers[other];
            table.dates[place][0] = table.dates[other][0];
        }
        Spoil::FewerDates => drop(table.dates.pop()),
        Spoil::MoreNumbers => table.numbers.push([0; 30]),
        Spoil::NoRows => *table = Table::with_room(0),
        // a place that is not lent
        _ => {}
    }
}

impl Pair for Gates {
    type Step = Step;

    fn start(chance: &mut Chance) -> Gates {
        let mut gates = Gates::new(texts::start_day(chance), 1 + chance.below(12));
        for _ in 0..6 {
            let open = Step::Open { number: texts::number(chance), kind: chance.between(0, 1) };
            gates.take(&open).expect("both sides open an account alike");
        }
        gates
    }

    fn words(&self) -> String {
        let name = |account: roosteryore::Account| format!("{}/{}", account.number, account.kind);
        let names: Vec<String> = self.proved.accounts().map(name).collect();
        let (closed, room) = (self.proved.head.closed, self.table.nums.len());
        format!("{closed} closed, {room} records lent, accounts {}", names.join(" "))
    }

    fn choose(&self, chance: &mut Chance) -> Step {
        let closed = self.proved.head.closed;
        let room = chance.pick(&[512, 512, 512, 512, 512, 512, 600, 600, 511, 0]);
        let out = Buffer { room, fill: chance.byte() };
        let clock = texts::any_date(chance, closed);
        match chance.below(26) {
            0 | 1 => Step::Open { number: texts::any_number(chance), kind: texts::any_kind(chance) },
            2 | 3 => Step::Draw {
                number: texts::any_number(chance),
                kind: texts::any_kind(chance),
                kopecks: chance.pick(&[0, 1, 7, 100, 5000, 999_999_999, 1_000_000_000]),
            },
            4 => Step::Spoil(self.choose_spoil(chance)),
            5..=8 => self.choose_settle(chance, clock, out),
            _ if self.sound.is_some() && chance.one_in(6) => Step::Mend,
            _ => {
                let known: Vec<Payment> = self.proved.records().map(|record| record.payment).collect();
                Step::Deliver { clock, parameters: Text(texts::parameters(chance, closed, &known)), out }
            }
        }
    }

    fn take(&mut self, step: &Step) -> Result<u64, String> {
        match step {
            Step::Spoil(spoil) => self.spoil(spoil),
            Step::Mend => self.mend(),
            _ => {}
        }
        let (proved, by_value) = (self.proved_takes(step), self.value.takes(step));
        let (lent, owned) = (self.lent_takes(step), self.owned_takes(step));
        let forms = self.form_difference(&proved, &by_value);
        match forms.or_else(|| self.difference(&proved, &lent, owned.as_ref())) {
            None => Ok(proved.code),
            Some(how) => Err(how),
        }
    }
}

#[cfg(test)]
mod tests {
    use super::*;

    #[test]
    fn a_byte_that_differs_is_told() {
        let day = Day::new(2005, 9, 19);
        let step = Step::Mend;
        let mut gates = Gates::new(day, 2);
        assert_eq!(gates.take(&step), Ok(0));
        gates.table.numbers[1][29] = 1;
        assert!(gates.take(&step).is_err(), "a byte of a place that is not in use");
        let mut gates = Gates::new(day, 2);
        gates.head.accounts[255].balance = 1;
        assert!(gates.take(&step).is_err(), "a balance of an account that is not open");
        let mut gates = Gates::new(day, 2);
        gates.value.gate.accounts[255].number.bytes[29] = 1;
        assert!(gates.take(&step).is_err(), "a byte past the number of such an account, in one form alone");
        let mut gates = Gates::new(day, 2);
        gates.value.table.dates[1][2][18] = 1;
        assert!(gates.take(&step).is_err(), "a byte of the table, in one form alone");
    }
}
