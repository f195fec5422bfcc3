//! A load for the rehearsal: session lines made from a generator.

use std::io::{self, Write};

use crate::asking;
use crate::codes::{FINE, WRONG_FIELD};
use crate::date::{self, Date};
use crate::fields::{self, Number, TOP_KIND};
use crate::payment::Payment;
use crate::request;
use crate::rules::MOST_ACCOUNTS;
use crate::session;
use crate::writer::Writer;

const FACTOR: u64 = 6_364_136_223_846_793_005;
const ADDEND: u64 = 1_442_695_040_888_963_407;
/// More than the longest line has: 197, a payment's to a number of 30 coded bytes.
const LINE: usize = 256;
/// What is printed at once.
const PART: usize = 65_536;
const LONGEST_INPUT: usize = 9_216;

/// What a call wrote.
#[derive(Clone, Copy, Debug, PartialEq, Eq)]
pub struct Load {
    /// 0, or 60 where a field is malformed.
    pub code: u64,
    /// How many bytes were written.
    pub size: usize,
    /// How many lines.
    pub steps: usize,
    /// The start from which a further call goes on.
    pub next: u64,
}

/// What all steps of a load share.
struct Plan<'a> {
    date: &'a Date,
    reason: u64,
    accounts: &'a [(Number, u64)],
}

/// The generator's value after this one.
fn next_value(value: u64) -> u64 {
    value.wrapping_mul(FACTOR).wrapping_add(ADDEND)
}

/// The rolls of the step after this value, and the value after the step.
fn roll(mut value: u64) -> ([u64; 4], u64) {
    let rolls = [(); 4].map(|()| {
        value = next_value(value);
        value >> 32
    });
    (rolls, value)
}

/// Writes whole lines while they fit the buffer, at most so many; each number stands with its type.
pub fn write_load(
    start: u64,
    date: &Date,
    reason: u64,
    accounts: &[(Number, u64)],
    most: usize,
    buffer: &mut [u8],
) -> Load {
    let plan = Plan { date, reason, accounts };
    let mut load = Load { code: FINE, size: 0, steps: 0, next: start };
    if !plan.is_good() {
        return Load { code: WRONG_FIELD, ..load };
    }
    let mut line = [0; LINE];
    while load.steps < most {
        let (rolls, next) = roll(load.next);
        let size = load.size + plan.write_step(rolls, &mut line);
        let Some(room) = buffer.get_mut(load.size..size) else { break };
        room.copy_from_slice(&line[..room.len()]);
        load = Load { size, steps: load.steps + 1, next, ..load };
    }
    load
}

impl Plan<'_> {
    fn is_good(&self) -> bool {
        date::is_date(self.date)
            && fields::is_reason(self.reason)
            && (1..=MOST_ACCOUNTS).contains(&self.accounts.len())
            && self.accounts.iter().all(|(number, kind)| number.is_good() && *kind <= TOP_KIND)
    }

    /// Writes a step's line; its length.
    fn write_step(&self, [step, account, receipt, kopecks]: [u64; 4], line: &mut [u8; LINE]) -> usize {
        let (number, kind) = self.accounts[account as usize % self.accounts.len()];
        let (receipt, kopecks) = (1 + receipt % 1_000, 1 + kopecks % 100_000);
        match step % 8 {
            0..=3 => {
                let payment = Payment { receipt, number, kind, kopecks, date: *self.date };
                self.write_request(line, |out| asking::write_payment(&payment, out))
            }
            4 | 5 => self.write_request(line, |out| asking::write_status(receipt, out)),
            6 => self.write_request(line, |out| asking::write_cancel(receipt, self.reason, out)),
            _ => {
                let mut writer = Writer::new(line);
                writer.put(b"D ").put(&number.bytes[..number.len]).put(b" ").put_digits(kind);
                writer.put(b" ").put_digits(kopecks).put(b"\n").written()
            }
        }
    }

    /// Writes the line of a request whose parameters are written so; its length.
    fn write_request(&self, line: &mut [u8; LINE], parameters: impl FnOnce(&mut [u8]) -> usize) -> usize {
        let head = Writer::new(line).put(b"R ").put(self.date).put(b" ").written();
        let end = head + parameters(&mut line[head..]);
        line[end] = b'\n';
        end + 1
    }
}

/// What the load program is asked for.
pub struct Order {
    start: u64,
    date: Date,
    reason: u64,
    steps: u64,
    accounts: Vec<(Number, u64)>,
}

impl Order {
    /// The order in the program's input: a line `START DATE REASON STEPS`, then a line `NUMBER TYPE` for each account.
    pub fn read(input: &[u8]) -> Option<Order> {
        if input.len() > LONGEST_INPUT {
            return None;
        }
        let mut lines = session::lines(input).map(|line| line.split(|&byte| byte == b' ').collect::<Vec<_>>());
        let [start, date, reason, steps] = lines.next()?[..] else { return None };
        let read_account = |line: Vec<&[u8]>| match line[..] {
            [number, kind] => fields::read_account(number, kind),
            _ => None,
        };
        let accounts: Vec<_> = lines.map(read_account).collect::<Option<_>>()?;
        let order = Order {
            start: read_word(start)?,
            date: request::read_date(date)?,
            reason: fields::read_reason(reason)?,
            steps: read_word(steps)?,
            accounts,
        };
        (1..=MOST_ACCOUNTS).contains(&order.accounts.len()).then_some(order)
    }

    /// Prints the load in parts, since memory need not hold all of it.
    ///
    /// # Errors
    /// Where the output takes no more.
    pub fn print(&self, out: &mut impl Write) -> io::Result<()> {
        let mut part = [0; PART];
        let (mut start, mut left) = (self.start, self.steps);
        while left > 0 {
            let most = usize::try_from(left).unwrap_or(usize::MAX);
            let load = write_load(start, &self.date, self.reason, &self.accounts, most, &mut part);
            out.write_all(&part[..load.size])?;
            (start, left) = (load.next, left - load.steps as u64);
        }
        Ok(())
    }
}

/// The value of 1 to 20 digits, where 64 bits hold it.
fn read_word(text: &[u8]) -> Option<u64> {
    let digits = text.len() <= 20 && text.iter().all(u8::is_ascii_digit);
    std::str::from_utf8(text).ok().filter(|_| digits)?.parse().ok()
}

/// What the load program prints for an input; none where it is malformed.
pub fn run(input: &[u8]) -> Option<Vec<u8>> {
    let order = Order::read(input)?;
    let mut text = Vec::new();
    order.print(&mut text).expect("memory takes all");
    Some(text)
}

#[cfg(test)]
mod tests {
    use super::*;

    const DATE: &Date = b"2005-09-20T15:53:00";

    fn accounts() -> [(Number, u64); 2] {
        [(b"choir_1".as_slice(), 1), (b"\xD5\xEE\xF0", 7)].map(|(text, kind)| (Number::read(text).expect("good"), kind))
    }

    // The first values after a start, from arithmetic without wrapping.
    const AFTER_0: [u64; 10] = [
        1_442_695_040_888_963_407,
        1_876_011_003_808_476_466,
        11_166_244_414_315_200_793,
        7_401_132_627_792_533_940,
        7_076_646_890_315_895_283,
        10_346_034_117_385_188_870,
        1_459_328_389_850_446_429,
        6_566_661_184_467_396_264,
        8_905_969_151_499_887_831,
        8_237_903_092_696_572_954,
    ];
    const AFTER_1: [u64; 10] = [
        7_806_831_264_735_756_412,
        9_396_908_728_118_811_419,
        11_960_119_808_228_829_710,
        7_062_582_979_898_595_269,
        14_673_421_054_488_193_520,
        9_232_803_539_723_513_983,
        10_218_303_843_513_747_618,
        1_206_773_305_466_921_929,
        15_490_212_636_682_683_044,
        3_660_572_683_296_592_931,
    ];
    const AFTER_TOP: [u64; 10] = [
        13_525_302_890_751_722_018,
        12_801_857_353_207_693_129,
        10_372_369_020_401_571_876,
        7_739_682_275_686_472_611,
        17_926_616_799_853_148_662,
        11_459_264_695_046_863_757,
        11_147_097_009_896_696_856,
        11_926_549_063_467_870_599,
        2_321_725_666_317_092_618,
        12_815_233_502_096_552_977,
    ];

    #[test]
    fn the_generator_wraps_to_64_bits() {
        for (start, values) in [(0, AFTER_0), (1, AFTER_1), (u64::MAX, AFTER_TOP)] {
            let mut value = start;
            for expected in values {
                value = next_value(value);
                assert_eq!(value, expected, "from {start}");
            }
        }
    }

    /// The first four steps from 1127, one of each kind.
    const LINES: &[u8] = b"\
        R 2005-09-20T15:53:00 action=payment&number=choir%5F1&type=1&amount=502.44&receipt=223&date=2005-09-20T15:53:00\n\
        R 2005-09-20T15:53:00 action=status&receipt=997\n\
        R 2005-09-20T15:53:00 action=cancel&receipt=965&mes=5\n\
        D \xD5\xEE\xF0 7 19198\n";

    #[test]
    fn each_kind_of_step_has_its_line() {
        let mut buffer = [0; 400];
        let load = write_load(1127, DATE, 5, &accounts(), 4, &mut buffer);
        assert_eq!(load, Load { code: FINE, size: LINES.len(), steps: 4, next: 10_103_993_016_733_874_807 });
        assert_eq!(&buffer[..load.size], LINES);
        assert_eq!(run(b"1127 2005-09-20T15:53:00 5 4\nchoir_1 1\n\xD5\xEE\xF0 007").as_deref(), Some(LINES));
    }

    #[test]
    fn a_second_call_goes_on_where_the_first_had_no_room() {
        for (room, most) in (0..=LINES.len()).flat_map(|room| (0..=4).map(move |most| (room, most))) {
            let mut buffer = [b'#'; 400];
            let first = write_load(1127, DATE, 5, &accounts(), most, &mut buffer[..room]);
            let fitting = LINES.split_inclusive(|&byte| byte == b'\n').scan(0, |end, line| {
                *end += line.len();
                (*end <= room).then_some(*end)
            });
            let ends: Vec<usize> = fitting.take(most).collect();
            assert_eq!((first.code, first.steps, first.size), (FINE, ends.len(), ends.last().copied().unwrap_or(0)));
            assert!(buffer[first.size..].iter().all(|&byte| byte == b'#') && (first.steps > 0 || first.next == 1127));
            let second = write_load(first.next, DATE, 5, &accounts(), 4 - first.steps, &mut buffer[first.size..]);
            assert_eq!((first.steps + second.steps, second.next), (4, 10_103_993_016_733_874_807));
            assert_eq!(&buffer[..LINES.len()], LINES, "{room} bytes, {most} steps");
        }
    }

    #[test]
    fn malformed_fields_write_nothing() {
        let refused = |date, reason, accounts: &[(Number, u64)]| {
            let mut buffer = [b'#'; 400];
            let load = write_load(7, date, reason, accounts, 4, &mut buffer);
            load == Load { code: WRONG_FIELD, size: 0, steps: 0, next: 7 } && buffer == [b'#'; 400]
        };
        let [good, other] = accounts();
        assert!(!refused(DATE, 5, &[good; 256]));
        assert!(refused(b"2005-02-29T15:53:00", 5, &[good]));
        assert!([0, 6, u64::MAX].iter().all(|&reason| refused(DATE, reason, &[good])));
        assert!(refused(DATE, 5, &[]) && refused(DATE, 5, &[good; 257]));
        let number = |len, byte| (Number { bytes: [byte; 30], len }, 1);
        for bad in [number(0, b'1'), number(31, b'1'), number(30, b' '), (good.0, 1000), (good.0, u64::MAX)] {
            assert!(refused(DATE, 5, &[good, other, bad]) && refused(DATE, 5, &[bad]), "{bad:?}");
        }
    }

    #[test]
    fn an_order_is_read_whole_or_not_at_all() {
        let printed = |text: &str| run(text.as_bytes()).map(|text| text.split(|&byte| byte == b'\n').count() - 1);
        let good = [
            ("18446744073709551615 2005-09-20T15:53:00 5 3\na 1\n", 3),
            ("00000000000000000007 2005-09-20T15:53:00 1 00000000000000002000\na 1\na 000", 2000),
            ("7 2005-09-20T15:53:00 1 0\na 1", 0),
        ];
        for (text, count) in good {
            assert_eq!(printed(text), Some(count), "{text}");
        }
        for head in ["18446744073709551616", "000000000000000000007", "", "+7", "7 ", " 7", "x"] {
            for text in [format!("{head} 2005-09-20T15:53:00 5 3"), format!("7 2005-09-20T15:53:00 5 {head}")] {
                assert_eq!(printed(&(text + "\na 1\n")), None, "{head}");
            }
        }
        for rest in ["", "\n", "\n\n", "\na 1\n\n", "\n\na 1", "\na", "\na 1 1", "\n 1", "\na 1000", "\na  1"] {
            assert_eq!(printed(&format!("7 2005-09-20T15:53:00 5 3{rest}")), None, "{rest:?}");
        }
    }
}
