//! The session program: a gate with a table of 256 records, driven by lines of text.

use crate::date::{Date, Day, NO_DATE, date_key, read_day};
use crate::fields;
use crate::lent::{Head, Rows};

/// How many records the table has.
const ROOM: usize = 256;
/// What a line that is not understood prints.
const UNREAD: &str = "99";
/// Where a record's numbers stand among its six, and the states.
const RECEIPT: usize = 0;
const AMOUNT: usize = 3;
const STATE: usize = 4;
const AUTHCODE: usize = 5;
const DONE: u64 = 1;
const CANCELLED: u64 = 2;

/// A session; it has a gate once a day was read.
pub struct Session {
    gate: Option<Box<Gate>>,
}

struct Gate {
    head: Head,
    nums: [[u64; 6]; ROOM],
    numbers: [[u8; 30]; ROOM],
    dates: [[Date; 3]; ROOM],
}

impl Gate {
    fn new(closed: Day) -> Gate {
        let head = Head::new(closed);
        Gate { head, nums: [[0; 6]; ROOM], numbers: [[0; 30]; ROOM], dates: [[NO_DATE; 3]; ROOM] }
    }

    fn parts(&mut self) -> (&mut Head, Rows<'_>) {
        (&mut self.head, Rows { nums: &mut self.nums, numbers: &mut self.numbers, dates: &mut self.dates })
    }

    fn open(&mut self, number: &[u8], kind: &[u8]) -> u64 {
        let (head, rows) = self.parts();
        let Some((number, kind)) = fields::read_account(number, kind) else { return 59 };
        head.open(rows, number, kind)
    }

    fn draw(&mut self, number: &[u8], kind: &[u8], kopecks: u64) -> u64 {
        let (head, rows) = self.parts();
        let Some((number, kind)) = fields::read_account(number, kind) else { return 59 };
        head.draw(rows, number, kind, kopecks)
    }

    fn request(&mut self, clock: &[u8], parameters: &[u8]) -> u64 {
        let (head, rows) = self.parts();
        let clock = clock.try_into().unwrap_or(NO_DATE);
        head.deliver(rows, &clock, parameters, &mut [0; 512]).0
    }

    /// The done payments of a day, a line each, then number and kopecks of the done and of the cancelled.
    fn payments(&self, day: Day) -> String {
        let records = || self.nums[..self.head.used].iter().zip(&self.dates);
        let standing = |state: u64| {
            records().filter(move |(nums, dates)| nums[STATE] == state && date_key(&dates[0]) == day.key())
        };
        let totals = |state: u64| {
            let (count, kopecks) = standing(state).fold((0, 0), |(n, sum), (nums, _)| (n + 1, sum + nums[AMOUNT]));
            format!("{count} {kopecks}")
        };
        let done = standing(DONE).map(|(nums, _)| format!("{} {} {}", nums[RECEIPT], nums[AMOUNT], nums[AUTHCODE]));
        done.chain([totals(DONE), totals(CANCELLED)]).collect::<Vec<_>>().join("\n")
    }

    fn sum(&self) -> i64 {
        self.head.accounts[..self.head.count].iter().map(|account| account.balance).sum()
    }
}

impl Default for Session {
    fn default() -> Session {
        Session::new()
    }
}

impl Session {
    /// A session before its first line.
    pub fn new() -> Session {
        Session { gate: None }
    }

    /// What a line prints, without its last end.
    pub fn line(&mut self, line: &[u8]) -> String {
        if let Some(text) = self.listed(line) {
            return text;
        }
        match self.code(line) {
            None => UNREAD.to_owned(),
            Some(code) => {
                let (used, sum) = self.gate.as_ref().map_or((0, 0), |gate| (gate.head.used, gate.sum()));
                format!("{code} {used} {sum}")
            }
        }
    }

    /// What a line prints that asks for a day's payments.
    fn listed(&self, line: &[u8]) -> Option<String> {
        let gate = self.gate.as_ref()?;
        Some(gate.payments(read_day(line.strip_prefix(b"P ")?)?))
    }

    /// The code of any other line that is understood.
    fn code(&mut self, line: &[u8]) -> Option<u64> {
        let fields: Vec<&[u8]> = line.splitn(5, |&byte| byte == b' ').collect();
        match (self.gate.as_mut(), fields.as_slice()) {
            (None, [b"C", day]) => {
                self.gate = Some(Box::new(Gate::new(read_day(day)?)));
                Some(0)
            }
            (Some(gate), [b"O", number, kind]) => Some(gate.open(number, kind)),
            (Some(gate), [b"D", number, kind, kopecks]) => {
                Some(gate.draw(number, kind, fields::read_digits(kopecks, 15)?))
            }
            (Some(gate), [b"R", clock, _, ..]) => Some(gate.request(clock, &line[clock.len() + 3..])),
            _ => None,
        }
    }
}

/// The lines of a text without their ends; what stands behind the last end is a line, too.
pub(crate) fn lines(input: &[u8]) -> impl Iterator<Item = &[u8]> {
    input.split_inclusive(|&byte| byte == b'\n').map(|line| line.strip_suffix(b"\n").unwrap_or(line))
}

/// What a whole session prints.
pub fn run(input: &[u8]) -> Vec<u8> {
    let mut session = Session::new();
    lines(input).flat_map(|line| (session.line(line) + "\n").into_bytes()).collect()
}

#[cfg(test)]
mod tests {
    use super::*;

    fn prints(input: &str, output: &str) {
        assert_eq!(String::from_utf8(run(input.as_bytes())).expect("text"), output, "{input}");
    }

    const START: &str = "C 2005-09-19\nO account12 1\n";

    #[test]
    fn the_sample_prints_what_the_paper_says() {
        let payment = "action=payment&number=account12&amount=10.12&receipt=987654321&date=2005-09-20T15:53:00&type=1";
        prints(&format!("{START}R 2005-09-20T15:55:00 {payment}\n"), "0 0 0\n0 0 0\n0 1 1012\n");
    }

    #[test]
    fn lines_that_are_not_understood_print_99() {
        prints("O a 1\n\nC 2005-02-29\nC 2005-09-19 \nC 2005-09-19\nC 2005-09-19", "99\n99\n99\n99\n0 0 0\n99\n");
        for line in
            ["", "o a 1", "O a", "O a 1 1", "R 2005-09-20T15:55:00", "D account12 1", "D account12 1 ", "D a 1 1x"]
        {
            prints(&format!("{START}{line}\n"), "0 0 0\n0 0 0\n99\n");
        }
        prints(&format!("{START}D account12 1 0000000000000001"), "0 0 0\n0 0 0\n99\n");
    }

    #[test]
    fn a_day_is_printed_by_the_payments_own_dates() {
        let request = |clock: &str, text: &str| format!("R {clock}T10:00:00 action={text}\n");
        let pay = |receipt: u64, date: &str, amount: &str| {
            request(
                "2005-09-21",
                &format!("payment&number=account12&amount={amount}&receipt={receipt}&date={date}T09:00:00"),
            )
        };
        let payments = [pay(7, "2005-09-20", "10.12"), pay(3, "2005-09-21", "1"), pay(5, "2005-09-20", "2")].concat();
        let cancel = request("2005-09-21", "cancel&receipt=7&mes=1");
        prints(
            &format!("{START}P 2005-09-20\n{payments}P 2005-09-20\n{cancel}P 2005-09-20\nP 2005-09-21"),
            "0 0 0\n0 0 0\n0 0\n0 0\n0 1 1012\n0 2 1112\n0 3 1312\n7 1012 1\n5 200 3\n2 1212\n0 0\n0 3 300\n5 200 3\n1 200\n1 1012\n3 100 2\n1 100\n0 0\n",
        );
        prints("P 2005-09-20\n", "99\n");
        for line in ["P", "P ", "P 2005-02-29", "P 2005-09-20 ", "P  2005-09-20", "P 2005-09-20 x", "p 2005-09-20"] {
            prints(&format!("{START}{line}\n"), "0 0 0\n0 0 0\n99\n");
        }
    }

    #[test]
    fn malformed_fields_have_their_codes() {
        for (line, code) in
            [("O  1", 59), ("O b ", 59), ("D b 1 5", 59), ("D account12 1 5", 58), ("R x action=check", 51)]
        {
            prints(&format!("{START}{line}\n"), &format!("0 0 0\n0 0 0\n{code} 0 0\n"));
        }
        prints(&format!("{START}R 2005-09-20T15:55:00 "), "0 0 0\n0 0 0\n1 0 0\n");
        prints("", "");
    }
}
