//! Settlement of tables with receipts and accounts that occur twice, against a plain walk over all pairs.

mod common;

use common::{AnyGate, CLOSED, Lent, at, number};
use twin::date::{Date, Day};
use twin::lent::Account;

const DAY: Day = Day::new(2005, 9, 20);

struct Dice(u64);

impl Dice {
    fn below(&mut self, bound: u64) -> u64 {
        self.0 = self.0.wrapping_mul(6_364_136_223_846_793_005).wrapping_add(1_442_695_040_888_963_407);
        (self.0 >> 33) % bound
    }
}

/// What a line says: name, kopecks, date and receipt.
type Line = (String, u64, Date, u64);

fn gate(dice: &mut Dice) -> Lent {
    let mut gate = Lent::new(CLOSED, 14);
    for place in 0..5 {
        let number = number(&format!("a{}", dice.below(3)));
        gate.head.accounts[place] = Account { number, kind: 1, balance: dice.below(500) as i64 };
    }
    (gate.head.count, gate.head.used) = (5, dice.below(14) as usize);
    for place in 0..gate.head.used {
        let (account, done) = (gate.head.accounts[dice.below(5) as usize], dice.below(2) == 0);
        let state = if done { 1 } else { 2 };
        gate.nums[place] = [1 + dice.below(6), 2, 1, 1 + dice.below(2), state, place as u64 + 1];
        gate.numbers[place] = account.number.bytes;
        let paid = if dice.below(4) == 0 { common::date("2005-09-21T10:00:00") } else { at("10:00:00") };
        gate.dates[place] = [paid, at("11:00:00"), if done { [0; 19] } else { at("12:00:00") }];
    }
    gate
}

fn agrees(gate: &Lent, place: usize, line: &Line) -> bool {
    let [receipt, len, kind, kopecks, ..] = gate.nums[place];
    let name = &gate.numbers[place][..len as usize];
    (receipt, kind, kopecks, gate.dates[place][0], name) == (line.3, 1, line.1, line.2, line.0.as_bytes())
}

fn account(gate: &Lent, name: &[u8]) -> Option<usize> {
    gate.head.accounts[..gate.head.count].iter().position(|account| &account.number.bytes[..account.number.len] == name)
}

fn turn(gate: &mut Lent, place: usize, done: bool, clock: &Date) {
    let kopecks = gate.nums[place][3] as i64;
    let account = account(gate, &gate.numbers[place][..2]).expect("known");
    gate.head.accounts[account].balance += if done { kopecks } else { -kopecks };
    gate.nums[place][4] = if done { 1 } else { 2 };
    gate.dates[place][2] = if done { [0; 19] } else { *clock };
}

fn settle(gate: &mut Lent, clock: &Date, lines: &[Line]) -> String {
    for line in lines {
        let used = gate.head.used;
        let first = (0..used).find(|&place| agrees(gate, place, line));
        let recorded = gate.nums[..used].iter().any(|nums| nums[0] == line.3);
        match (first, account(gate, line.0.as_bytes())) {
            (Some(place), _) if gate.nums[place][4] == 2 => turn(gate, place, true, clock),
            (None, Some(_)) if !recorded && used < gate.nums.len() => {
                gate.nums[used] = [line.3, 2, 1, line.1, 2, used as u64 + 1];
                gate.numbers[used] = number(&line.0).bytes;
                gate.dates[used] = [line.2, *clock, [0; 19]];
                gate.head.used += 1;
                turn(gate, used, true, clock);
            }
            _ => {}
        }
    }
    for place in 0..gate.head.used {
        let of_day = gate.dates[place][0][..10] == *b"2005-09-20";
        if of_day && gate.nums[place][4] == 1 && !lines.iter().any(|line| agrees(gate, place, line)) {
            turn(gate, place, false, clock);
        }
    }
    gate.head.closed = DAY;
    review(gate, lines)
}

fn review(gate: &Lent, lines: &[Line]) -> String {
    let posted = |line| (0..gate.head.used).any(|place| gate.nums[place][4] == 1 && agrees(gate, place, line));
    lines.iter().map(|line| if posted(line) { '1' } else { '0' }).collect()
}

#[test]
fn settlement_is_the_plain_one() {
    let mut dice = Dice(3);
    for round in 0..5000 {
        let mut gate = gate(&mut dice);
        let mut lines: Vec<Line> = Vec::new();
        for receipt in (1..=8).filter(|_| round % 7 != 0) {
            if dice.below(2) == 0 {
                lines.push((format!("a{}", dice.below(4)), 1 + dice.below(2), at("10:00:00"), receipt));
            }
        }
        let text: String = lines
            .iter()
            .map(|(name, kopecks, _, receipt)| format!("{name}\t1\t2005-09-20T10:00:00\t0.0{kopecks}\t{receipt}\r\n"))
            .collect();
        let mut plain = gate.clone();
        let report = settle(&mut plain, &at("23:59:59"), &lines);
        assert_eq!(gate.report(DAY, text.as_bytes()), (0, report.clone()));
        assert_eq!(gate.bytes(), plain.bytes());
        assert_eq!(gate.report(DAY, text.as_bytes()), (0, review(&plain, &lines)));
        assert_eq!(gate.bytes(), plain.bytes());
    }
}
