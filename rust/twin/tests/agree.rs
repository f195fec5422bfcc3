//! Long random lists on which both gates have to agree, and random lent values that must not bring a call down.

mod common;

use common::{Agent, AnyGate, CLOSED, Lent, at, number};
use twin::date::{Date, Day};
use twin::fields::Number;
use twin::owned::Gate;
use twin::request::Action;

/// A small generator; the same numbers at each run.
struct Dice(u64);

impl Dice {
    fn below(&mut self, bound: u64) -> u64 {
        self.0 = self.0.wrapping_mul(6_364_136_223_846_793_005).wrapping_add(1_442_695_040_888_963_407);
        (self.0 >> 33) % bound
    }

    fn date(&mut self) -> String {
        format!("2005-09-{:02}T{:02}:00:00", 19 + self.below(6), self.below(3))
    }

    fn request(&mut self) -> String {
        let (receipt, amount, account) = (self.below(40), self.below(3), self.below(4));
        match self.below(6) {
            0 => format!("action=check&number=a{account}&amount={amount}.5"),
            1 | 2 => format!("action=payment&number=a{account}&amount={amount}&receipt={receipt}&date={}", self.date()),
            3 => format!("action=status&receipt={receipt}"),
            4 => format!("action=cancel&receipt={receipt}&mes={}", self.below(7)),
            _ => format!("action=pay%{receipt}ment&mes={amount}"),
        }
    }

    fn registry(&mut self, day: Day) -> String {
        let mut text = String::new();
        for receipt in 1..40 {
            if self.below(3) == 0 {
                let (account, hour, amount) = (self.below(4), self.below(3), 1 + self.below(2));
                text += &format!("a{account}\t1\t2005-09-{:02}T{hour:02}:00:00\t{amount}.00\t{receipt}\r\n", day.day);
            }
        }
        text
    }

    fn value(&mut self) -> u64 {
        let odd = [0, 1, 2, 3, 30, 31, 999, 1000, u64::MAX, i64::MAX as u64, i64::MIN as u64, u64::MAX - 4096];
        odd[self.below(odd.len() as u64) as usize]
    }
}

#[test]
fn both_gates_agree() {
    for seed in 0..200 {
        let mut dice = Dice(seed);
        let room = 1 + dice.below(30) as usize;
        let (mut lent, mut owned) = (Lent::new(CLOSED, room), Gate::new(CLOSED, room));
        for step in 0..200 {
            let account = number(&format!("a{}", dice.below(3)));
            let clock: Date = at(&format!("12:{:02}:00", step % 60));
            match dice.below(20) {
                0 => assert_eq!(lent.open(account, 1), AnyGate::open(&mut owned, account, 1)),
                1 => {
                    let kopecks = dice.below(300);
                    assert_eq!(lent.draw(account, 1, kopecks), AnyGate::draw(&mut owned, account, 1, kopecks));
                }
                2 => {
                    let day = Day::new(2005, 9, 18 + dice.below(6) as u8);
                    let text = dice.registry(day);
                    assert_eq!(lent.report(day, text.as_bytes()), owned.report(day, text.as_bytes()));
                }
                _ => {
                    let request = dice.request();
                    assert_eq!(lent.ask(&clock, &request), owned.ask(&clock, &request), "{request}");
                }
            }
            assert_eq!(lent.balances(), AnyGate::balances(&owned));
            assert_eq!(lent.records(), AnyGate::records(&owned));
        }
    }
}

#[test]
fn odd_values_never_panic() {
    let mut dice = Dice(7);
    let mut start = Lent::new(CLOSED, 3);
    assert_eq!(start.open(number("a1"), 1), 0);
    assert_eq!(start.code("action=payment&number=a1&amount=1&receipt=1&date=2005-09-20T10:00:00"), 0);
    for _ in 0..20_000 {
        let mut gate = start.clone();
        let value = dice.value();
        match dice.below(9) {
            0 => gate.head.used = value as usize,
            1 => gate.head.count = value as usize,
            2 => gate.head.accounts[0].balance = value as i64,
            3 => gate.head.accounts[0].number.len = value as usize,
            4 => gate.head.closed = Day::new(value as u16, value as u8, dice.value() as u8),
            5 => gate.dates[0][dice.below(3) as usize][dice.below(19) as usize] = value as u8,
            6 => gate.numbers[0][dice.below(30) as usize] = value as u8,
            _ => gate.nums[0][dice.below(6) as usize] = value,
        }
        let odd = Number { bytes: [value as u8; 30], len: dice.value() as usize };
        let day = Day::new(2005 + (dice.value() % 3) as u16, 9, 20);
        gate.open(odd, dice.value());
        gate.draw(if dice.below(2) == 0 { odd } else { number("a1") }, 1, dice.value());
        let request = dice.request();
        gate.deliver(&at("12:00:00"), request.as_bytes(), &mut [0; 512]);
        let text = dice.registry(day);
        gate.settle(&at("12:00:00"), day, text.as_bytes(), &mut [0; 512]);
    }
}

#[test]
fn odd_books_and_texts_never_panic() {
    let mut dice = Dice(11);
    let mut start = Agent::new(999_999_999_999_998, 3);
    assert_eq!(start.accept(number("a1"), 1, 100, &at("10:00:00")).0, 0);
    let answer = b"<?xml version=\"1.0\" encoding=\"windows-1251\"?><response><code>0</code></response>";
    let line = b"a1\t1\t2005-09-20T10:00:00\t1.00\t1\r\n";
    for _ in 0..20_000 {
        let (mut agent, value) = (start.clone(), dice.value());
        match dice.below(6) {
            0 => agent.head.used = value as usize,
            1 => agent.head.first = value,
            2 => agent.head.frozen = Day::new(dice.value() as u16, value as u8, dice.value() as u8),
            3 => agent.dates[0][dice.below(19) as usize] = value as u8,
            4 => agent.numbers[0][dice.below(30) as usize] = value as u8,
            _ => agent.nums[0][dice.below(6) as usize] = value,
        }
        let odd = Number { bytes: [value as u8; 30], len: dice.value() as usize };
        let action = [Action::Check, Action::Payment, Action::Status, Action::Cancel][dice.below(4) as usize];
        let (mut text, mut row) = (*answer, *line);
        text[dice.below(text.len() as u64) as usize] = dice.below(256) as u8;
        row[dice.below(row.len() as u64) as usize] = dice.below(256) as u8;
        agent.accept(odd, dice.value(), dice.value(), &at("10:00:00"));
        agent.check(odd, dice.value(), dice.value());
        agent.write(action, start.head.first + dice.below(3), dice.value());
        agent.answer(action, start.head.first, &text[..dice.below(text.len() as u64 + 1) as usize]);
        agent.freeze(Day::new(2005, 9, 20));
        agent.report(Day::new(2005, 9, 20), b"1");
        agent.registry(Day::new(dice.value() as u16, 9, 20));
        Gate::new(CLOSED, 3).report(Day::new(2005, 9, 20), &row[..dice.below(row.len() as u64 + 1) as usize]);
    }
}
