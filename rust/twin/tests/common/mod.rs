//! Both gates and the book behind one face, for the tests.
#![allow(dead_code)]

use twin::book;
use twin::date::{Date, Day};
use twin::fields::Number;
use twin::lent;
use twin::owned::Gate;
use twin::request::Action;

pub const CLOSED: Day = Day::new(2005, 9, 19);
pub const K1: &str = "action=payment&number=account12&amount=10.12&receipt=987654321&date=2005-09-20T15:53:00&type=1";

pub fn number(text: &str) -> Number {
    Number::read(text.as_bytes()).expect("a good number")
}

pub fn date(text: &str) -> Date {
    text.as_bytes().try_into().expect("nineteen bytes")
}

/// A clock on the day of the samples.
pub fn at(time: &str) -> Date {
    date(&format!("2005-09-20T{time}"))
}

/// A gate of either make.
pub trait AnyGate {
    fn open(&mut self, number: Number, kind: u64) -> u64;
    fn draw(&mut self, number: Number, kind: u64, kopecks: u64) -> u64;
    fn deliver(&mut self, clock: &Date, parameters: &[u8], out: &mut [u8]) -> (u64, usize);
    fn settle(&mut self, clock: &Date, day: Day, registry: &[u8], report: &mut [u8]) -> (u64, usize);
    fn balances(&self) -> Vec<i64>;
    /// Receipt, kopecks, done, and the three dates of each record.
    fn records(&self) -> Vec<(u64, u64, bool, [Date; 3])>;

    fn ask(&mut self, clock: &Date, parameters: &str) -> (u64, String) {
        let mut out = [b'#'; 512];
        let (code, len) = self.deliver(clock, parameters.as_bytes(), &mut out);
        assert!(out[len..].iter().all(|&byte| byte == b'#'));
        (code, String::from_utf8(out[..len].to_vec()).expect("plain text"))
    }

    fn code(&mut self, parameters: &str) -> u64 {
        self.ask(&at("15:55:00"), parameters).0
    }

    fn report(&mut self, day: Day, registry: &[u8]) -> (u64, String) {
        let mut report = [b'#'; 512];
        let (code, len) = self.settle(&at("23:59:59"), day, registry, &mut report);
        (code, String::from_utf8(report[..len].to_vec()).expect("plain text"))
    }
}

/// The lent gate with its rows.
#[derive(Clone)]
pub struct Lent {
    pub head: lent::Head,
    pub nums: Vec<[u64; 6]>,
    pub numbers: Vec<[u8; 30]>,
    pub dates: Vec<[Date; 3]>,
}

impl Lent {
    pub fn new(closed: Day, room: usize) -> Lent {
        let (nums, numbers, dates) = (vec![[9; 6]; room], vec![[9; 30]; room], vec![[[9; 19]; 3]; room]);
        Lent { head: lent::Head::new(closed), nums, numbers, dates }
    }

    pub fn parts(&mut self) -> (&mut lent::Head, lent::Rows<'_>) {
        let rows = lent::Rows { nums: &mut self.nums, numbers: &mut self.numbers, dates: &mut self.dates };
        (&mut self.head, rows)
    }

    /// All that is lent, for comparing before and after.
    pub fn bytes(&self) -> String {
        format!("{:?}{:?}{:?}{:?}", self.head, self.nums, self.numbers, self.dates)
    }
}

impl AnyGate for Lent {
    fn open(&mut self, number: Number, kind: u64) -> u64 {
        let (head, rows) = self.parts();
        head.open(rows, number, kind)
    }
    fn draw(&mut self, number: Number, kind: u64, kopecks: u64) -> u64 {
        let (head, rows) = self.parts();
        head.draw(rows, number, kind, kopecks)
    }
    fn deliver(&mut self, clock: &Date, parameters: &[u8], out: &mut [u8]) -> (u64, usize) {
        let (head, rows) = self.parts();
        head.deliver(rows, clock, parameters, out)
    }
    fn settle(&mut self, clock: &Date, day: Day, registry: &[u8], report: &mut [u8]) -> (u64, usize) {
        let (head, rows) = self.parts();
        head.settle(rows, clock, day, registry, report)
    }
    fn balances(&self) -> Vec<i64> {
        self.head.accounts[..self.head.count].iter().map(|account| account.balance).collect()
    }
    fn records(&self) -> Vec<(u64, u64, bool, [Date; 3])> {
        let used = self.head.used;
        self.nums[..used]
            .iter()
            .zip(&self.dates)
            .map(|(nums, dates)| (nums[0], nums[3], nums[4] == 1, *dates))
            .collect()
    }
}

impl AnyGate for Gate {
    fn open(&mut self, number: Number, kind: u64) -> u64 {
        Gate::open(self, number, kind)
    }
    fn draw(&mut self, number: Number, kind: u64, kopecks: u64) -> u64 {
        Gate::draw(self, number, kind, kopecks)
    }
    fn deliver(&mut self, clock: &Date, parameters: &[u8], out: &mut [u8]) -> (u64, usize) {
        Gate::deliver(self, clock, parameters, out)
    }
    fn settle(&mut self, clock: &Date, day: Day, registry: &[u8], report: &mut [u8]) -> (u64, usize) {
        Gate::settle(self, clock, day, registry, report)
    }
    fn balances(&self) -> Vec<i64> {
        Gate::balances(self).to_vec()
    }
    fn records(&self) -> Vec<(u64, u64, bool, [Date; 3])> {
        Gate::records(self)
            .map(|r| (r.payment.receipt, r.payment.kopecks, r.done, [r.payment.date, r.credit, r.cancel]))
            .collect()
    }
}

/// The start of the samples, on both gates.
pub fn gates(room: usize) -> [Box<dyn AnyGate>; 2] {
    let mut gates: [Box<dyn AnyGate>; 2] = [Box::new(Lent::new(CLOSED, room)), Box::new(Gate::new(CLOSED, room))];
    for gate in &mut gates {
        assert_eq!(gate.open(number("account12"), 1), 0);
    }
    gates
}

/// The agent with its rows.
#[derive(Clone)]
pub struct Agent {
    pub head: book::Head,
    pub nums: Vec<[u64; 6]>,
    pub numbers: Vec<[u8; 30]>,
    pub dates: Vec<Date>,
}

impl Agent {
    pub fn new(first: u64, room: usize) -> Agent {
        let head = book::Head { first, used: 0, frozen: CLOSED, settled: true };
        Agent { head, nums: vec![[9; 6]; room], numbers: vec![[9; 30]; room], dates: vec![[9; 19]; room] }
    }

    pub fn parts(&mut self) -> (&mut book::Head, book::Rows<'_>) {
        let rows = book::Rows { nums: &mut self.nums, numbers: &mut self.numbers, dates: &mut self.dates };
        (&mut self.head, rows)
    }

    pub fn accept(&mut self, number: Number, kind: u64, kopecks: u64, date: &Date) -> (u64, u64) {
        let (head, rows) = self.parts();
        head.accept(rows, number, kind, kopecks, date)
    }
    pub fn check(&mut self, number: Number, kind: u64, kopecks: u64) -> (u64, Vec<u8>) {
        let mut out = [b'#'; 512];
        let (head, rows) = self.parts();
        let (code, len) = head.write_check(rows, number, kind, kopecks, &mut out);
        (code, out[..len].to_vec())
    }
    pub fn write(&mut self, action: Action, receipt: u64, reason: u64) -> (u64, Vec<u8>) {
        let mut out = [b'#'; 512];
        let (head, rows) = self.parts();
        let (code, len) = head.write(rows, action, receipt, reason, &mut out);
        (code, out[..len].to_vec())
    }
    pub fn answer(&mut self, action: Action, receipt: u64, text: &[u8]) -> u64 {
        let (head, rows) = self.parts();
        head.take_answer(rows, action, receipt, text)
    }
    pub fn freeze(&mut self, day: Day) -> u64 {
        let (head, rows) = self.parts();
        head.freeze(rows, day)
    }
    pub fn registry(&mut self, day: Day) -> (u64, Vec<u8>) {
        let mut out = vec![b'#'; 65_536];
        let (head, rows) = self.parts();
        let (code, len) = head.write_registry(rows, day, &mut out);
        assert!(out[len..].iter().all(|&byte| byte == b'#'));
        (code, out[..len].to_vec())
    }
    pub fn report(&mut self, day: Day, report: &[u8]) -> u64 {
        let (head, rows) = self.parts();
        head.take_report(rows, day, report)
    }
    pub fn states(&self) -> Vec<u64> {
        self.nums[..self.head.used].iter().map(|nums| nums[4]).collect()
    }
    pub fn bytes(&self) -> String {
        format!("{:?}{:?}{:?}{:?}", self.head, self.nums, self.numbers, self.dates)
    }
}
