//! The same gate and the same book on each side, and how they are put back.
use compare::sides;
use compare::texts::payment_request;
use roosteryore::{Book, Date, Day, Entries, Gate, GateValue, Number, Payment, Rows, Table};

pub const START: Day = Day::new(2005, 9, 19);
pub const TODAY: Day = Day::new(2005, 9, 20);
pub const CLOCK: &Date = b"2005-09-20T15:55:00";

/// What a call changes of the rows, to be put back before the next.
#[derive(Clone, Copy)]
pub enum Touched {
    Nothing,
    Row(usize),
    All,
}

/// The number of an account.
pub fn choir(place: usize) -> Number {
    format!("choir-{place:06}").parse().expect("a number")
}

/// The payment at a place, of one of so many accounts.
pub fn payment(place: usize, accounts: usize, day: Day) -> Payment {
    let (hours, minutes, seconds) = (place / 3600 % 24, place / 60 % 60, place % 60);
    let date = format!("{day}T{hours:02}:{minutes:02}:{seconds:02}");
    Payment {
        receipt: 100_000_000 + 3 * place as u64,
        number: choir(place * 7 % accounts),
        kind: 1,
        kopecks: 1000 + place as u64 % 100,
        date: date.as_bytes().try_into().expect("nineteen bytes"),
    }
}

/// Rows put back as they were.
fn put_back<D: Copy>(rows: &mut Rows<D>, from: &Rows<D>, touched: Touched) {
    match touched {
        Touched::Nothing => {}
        Touched::Row(place) => {
            rows.nums[place] = from.nums[place];
            rows.numbers[place] = from.numbers[place];
            rows.dates[place] = from.dates[place];
        }
        Touched::All => {
            rows.nums.copy_from_slice(&from.nums);
            rows.numbers.copy_from_slice(&from.numbers);
            rows.dates.copy_from_slice(&from.dates);
        }
    }
}

/// A gate on all sides, with a buffer for each.
#[derive(Clone)]
pub struct Gates {
    pub proved: Gate,
    pub lent: Lent,
    pub owned: twin::owned::Gate,
}

/// The proved gate by value.
#[derive(Clone)]
pub struct Whole {
    pub gate: Box<GateValue>,
    pub table: Table,
}

impl Whole {
    pub fn of(gate: &Gate) -> Whole {
        Whole { gate: gate.value(), table: gate.table.clone() }
    }
}

#[derive(Clone)]
pub struct Lent {
    pub head: twin::lent::Head,
    pub table: Table,
}

impl Gates {
    /// So many accounts, and payments with their days, done or cancelled.
    pub fn new(
        accounts: usize,
        used: usize,
        room: usize,
        day: impl Fn(usize) -> Day,
        done: impl Fn(usize) -> bool,
    ) -> Gates {
        let before = Day::new(2005, 9, 18);
        let mut owned = twin::owned::Gate::new(sides::day(before), room);
        let mut head = twin::lent::Head::new(sides::day(before));
        let mut proved = Gate::new(before, Table::with_room(room));
        let mut out = [0; 512];
        for place in 0..accounts {
            assert_eq!(owned.open(sides::number(choir(place)), 1), 0);
            proved.open_account(choir(place), 1).expect("an account");
        }
        for place in 0..used {
            let paid = payment(place, accounts, day(place));
            assert_eq!(owned.deliver(CLOCK, payment_request(&paid).as_bytes(), &mut out).0, 0);
            write_record(&mut proved, place, &paid);
            if !done(place) {
                let cancel = format!("action=cancel&receipt={}&mes=1", paid.receipt);
                assert_eq!(owned.deliver(CLOCK, cancel.as_bytes(), &mut out).0, 0);
                cancel_record(&mut proved, place, &paid);
            }
        }
        owned.close(sides::day(START));
        proved.head.closed = START;
        head.clone_from(&sides::gate_head(&proved));
        Gates { lent: Lent { head, table: proved.table.clone() }, proved, owned }
    }
}

fn balance<'a>(gate: &'a mut Gate, paid: &Payment) -> &'a mut i64 {
    let place = gate.accounts().position(|account| account.number == paid.number);
    &mut gate.accounts.balances[place.expect("the account is open")]
}

fn write_record(gate: &mut Gate, place: usize, paid: &Payment) {
    let Payment { receipt, number, kind, kopecks, date } = *paid;
    gate.table.nums[place] = [receipt, number.len as u64, kind, kopecks, 1, place as u64 + 1];
    gate.table.numbers[place] = number.bytes;
    gate.table.dates[place] = [date, *CLOCK, [0; 19]];
    gate.head.used = place + 1;
    *balance(gate, paid) += kopecks as i64;
}

fn cancel_record(gate: &mut Gate, place: usize, paid: &Payment) {
    gate.table.nums[place][4] = 2;
    gate.table.dates[place][2] = *CLOCK;
    *balance(gate, paid) -= paid.kopecks as i64;
}

/// Puts a gate back as it was.
pub trait PutBack {
    fn put_back(&mut self, from: &Self, touched: Touched);
}

impl PutBack for Gate {
    fn put_back(&mut self, from: &Gate, touched: Touched) {
        self.accounts.clone_from(&from.accounts);
        self.head = from.head;
        put_back(&mut self.table, &from.table, touched);
    }
}

impl PutBack for Whole {
    fn put_back(&mut self, from: &Whole, touched: Touched) {
        *self.gate = *from.gate;
        put_back(&mut self.table, &from.table, touched);
    }
}

impl PutBack for Lent {
    fn put_back(&mut self, from: &Lent, touched: Touched) {
        self.head.clone_from(&from.head);
        put_back(&mut self.table, &from.table, touched);
    }
}

impl PutBack for twin::owned::Gate {
    fn put_back(&mut self, from: &twin::owned::Gate, touched: Touched) {
        if !matches!(touched, Touched::Nothing) {
            *self = from.clone();
            self.reserve();
        }
    }
}

/// A book on both sides.
#[derive(Clone)]
pub struct Books {
    pub proved: Book,
    pub lent: LentBook,
}

#[derive(Clone)]
pub struct LentBook {
    pub head: twin::book::Head,
    pub entries: Entries,
}

impl Books {
    /// So many payments, all asked, of today or, by their places, of days from then on; the day before the first is
    /// frozen.
    pub fn new(used: usize, room: usize, day: impl Fn(usize) -> Day) -> Books {
        let mut proved = Book::new(100_000_000, START, Entries::with_room(room));
        for place in 0..used {
            let Payment { number, kind, kopecks, date, .. } = payment(place, 256, day(place));
            let receipt = proved.head.first + place as u64;
            proved.rows.nums[place] = [receipt, number.len as u64, kind, kopecks, 1, 0];
            proved.rows.numbers[place] = number.bytes;
            proved.rows.dates[place] = date;
        }
        proved.head.used = used;
        let lent = LentBook { head: sides::book_head(&proved.head), entries: proved.rows.clone() };
        Books { proved, lent }
    }
}

impl PutBack for Book {
    fn put_back(&mut self, from: &Book, touched: Touched) {
        self.head = from.head;
        put_back(&mut self.rows, &from.rows, touched);
    }
}

impl PutBack for LentBook {
    fn put_back(&mut self, from: &LentBook, touched: Touched) {
        self.head = from.head;
        put_back(&mut self.entries, &from.entries, touched);
    }
}
