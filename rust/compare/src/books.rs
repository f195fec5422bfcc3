//! The agent's book: the proved one, and the twin over lent rows.
use crate::script::Pair;
use crate::sides::{self, Buffer, Outcome, Text};
use crate::texts;
use chance::Chance;
use roosteryore::{Book, Date, Day, Entries, Number};
use twin::request::Action;

/// Both sides of a book.
#[derive(Clone, Debug)]
pub struct Books {
    /// The proved one.
    pub proved: Book,
    head: twin::book::Head,
    entries: Entries,
    /// As both were before they were spoilt.
    sound: Option<Box<Books>>,
}

/// A step of both sides.
#[derive(Clone, Debug)]
#[allow(missing_docs)]
pub enum Step {
    Accept { number: Number, kind: u64, kopecks: u64, date: Date },
    WriteCheck { number: Number, kind: u64, kopecks: u64, out: Buffer },
    Write { action: Action, receipt: u64, reason: u64, out: Buffer },
    TakeAnswer { action: Action, receipt: u64, text: Text },
    Freeze { day: Day },
    WriteRegistry { day: Day, out: Buffer },
    TakeReport { day: Day, marks: Text },
    Spoil(Spoil),
    Mend,
}

/// One value changed in what is lent; it may be good still.
#[derive(Clone, Debug)]
#[allow(missing_docs)]
pub enum Spoil {
    First(u64),
    Used(usize),
    Frozen(Day),
    Num { place: usize, column: usize, value: u64 },
    NumberByte { place: usize, at: usize, byte: u8 },
    DateByte { place: usize, at: usize, byte: u8 },
    FewerDates,
    MoreNumbers,
    NoRows,
}

impl Books {
    /// Both sides, empty, with room for so many entries.
    pub fn new(first: u64, frozen: Day, room: usize) -> Books {
        let proved = Book::new(first, frozen, Entries::with_room(room));
        Books { head: sides::book_head(&proved.head), entries: proved.rows.clone(), proved, sound: None }
    }

    fn proved_takes(&mut self, step: &Step) -> Outcome {
        let book = &mut self.proved;
        match *step {
            Step::Accept { number, kind, kopecks, ref date } => Outcome::written(Buffer::NONE, |_| {
                book.accept(number, kind, kopecks, date).map_or_else(|fault| (fault.code(), 0), |receipt| (0, receipt))
            }),
            Step::WriteCheck { number, kind, kopecks, out } => {
                Outcome::written(out, |out| sides::written(book.write_check(number, kind, kopecks, out)))
            }
            Step::Write { action, receipt, reason, out } => {
                Outcome::written(out, |out| sides::written(proved_writes(book, action, receipt, reason, out)))
            }
            Step::TakeAnswer { action, receipt, ref text } => {
                Outcome::bare(sides::code(book.take_answer(sides::proved_action(action), receipt, &text.0)))
            }
            Step::Freeze { day } => Outcome::bare(sides::code(book.freeze(day))),
            Step::WriteRegistry { day, out } => {
                Outcome::written(out, |out| sides::written(book.write_registry(day, out)))
            }
            Step::TakeReport { day, ref marks } => Outcome::bare(sides::code(book.take_report(day, &marks.0))),
            Step::Spoil(_) | Step::Mend => Outcome::bare(0),
        }
    }

    fn twin_takes(&mut self, step: &Step) -> Outcome {
        let (head, rows) = (&mut self.head, sides::book_rows(&mut self.entries));
        let sized = |(code, size): (u64, usize)| (code, size as u64);
        match *step {
            Step::Accept { number, kind, kopecks, ref date } => {
                Outcome::written(Buffer::NONE, |_| head.accept(rows, sides::number(number), kind, kopecks, date))
            }
            Step::WriteCheck { number, kind, kopecks, out } => {
                Outcome::written(out, |out| sized(head.write_check(rows, sides::number(number), kind, kopecks, out)))
            }
            Step::Write { action, receipt, reason, out } => {
                Outcome::written(out, |out| sized(head.write(rows, action, receipt, reason, out)))
            }
            Step::TakeAnswer { action, receipt, ref text } => {
                Outcome::bare(head.take_answer(rows, action, receipt, &text.0))
            }
            Step::Freeze { day } => Outcome::bare(head.freeze(rows, sides::day(day))),
            Step::WriteRegistry { day, out } => {
                Outcome::written(out, |out| sized(head.write_registry(rows, sides::day(day), out)))
            }
            Step::TakeReport { day, ref marks } => Outcome::bare(head.take_report(rows, sides::day(day), &marks.0)),
            Step::Spoil(_) | Step::Mend => Outcome::bare(0),
        }
    }

    fn spoil(&mut self, spoil: &Spoil) {
        if self.sound.is_none() {
            self.sound = Some(Box::new(self.clone()));
        }
        apply(&mut self.proved, spoil);
        self.head = sides::book_head(&self.proved.head);
        self.entries = self.proved.rows.clone();
    }

    fn mend(&mut self) {
        if let Some(sound) = self.sound.take() {
            *self = *sound;
        }
    }

    fn choose_spoil(&self, chance: &mut Chance) -> Spoil {
        let head = &self.proved.head;
        let place = chance.below(head.used.max(1));
        match chance.below(14) {
            0 => Spoil::First(chance.pick(&[0, head.first.wrapping_add(1), 1_000_000_000_000_000, u64::MAX])),
            1 => Spoil::Used(self.entries.nums.len() + chance.below(2)),
            2 => Spoil::Frozen(texts::any_day(chance, head.frozen)),
            3..=8 => {
                let column = chance.below(6);
                let values = [0, 1, 2, 3, 4, 5, 6, 30, 31, 999, 1000, 999_999_999_999_999, 1_000_000_000_000_000];
                Spoil::Num { place, column, value: chance.pick(&values) }
            }
            9 => Spoil::NumberByte { place, at: chance.below(30), byte: chance.pick(b"a~ \0") },
            10 => Spoil::DateByte { place, at: chance.below(19), byte: chance.pick(b"0139-:T\0") },
            11 => Spoil::FewerDates,
            12 => Spoil::MoreNumbers,
            _ => Spoil::NoRows,
        }
    }

    fn choose_receipt(&self, chance: &mut Chance) -> u64 {
        match chance.below(12) {
            0 => chance.pick(&[0, 1_000_000_000_000_000, u64::MAX]),
            _ => self.proved.head.first.wrapping_add(chance.below(self.proved.head.used + 1) as u64),
        }
    }

    /// The marks of a report: of the right length more often than not.
    fn choose_marks(&self, chance: &mut Chance, day: Day) -> Text {
        let listed = self
            .proved
            .entries()
            .filter(|entry| entry.state != roosteryore::State::Cancelled && entry.payment.day() == Some(day))
            .count();
        let mut marks: Vec<u8> = (0..listed).map(|_| chance.pick(b"01")).collect();
        match chance.below(12) {
            0 => marks.push(b'1'),
            1 => drop(marks.pop()),
            2 => texts::damage(chance, &mut marks),
            _ => {}
        }
        Text(marks)
    }
}

/// A payment, a status or a cancel, each by its own call.
fn proved_writes<'a>(
    book: &mut Book,
    action: Action,
    receipt: u64,
    reason: u64,
    out: &'a mut [u8],
) -> Result<&'a [u8], roosteryore::Fault> {
    match action {
        Action::Payment => book.write_payment(receipt, out),
        Action::Status => book.write_status(receipt, out),
        Action::Cancel => book.write_cancel(receipt, reason, out),
        Action::Check => unreachable!("a check is written by a step of its own"),
    }
}

fn apply(book: &mut Book, spoil: &Spoil) {
    let Book { head, rows: entries } = book;
    let lent = entries.nums.len().min(entries.numbers.len()).min(entries.dates.len());
    match *spoil {
        Spoil::First(first) => head.first = first,
        Spoil::Used(used) => head.used = used,
        Spoil::Frozen(day) => head.frozen = day,
        Spoil::Num { place, column, value } if place < lent => entries.nums[place][column] = value,
        Spoil::NumberByte { place, at, byte } if place < lent => entries.numbers[place][at] = byte,
        Spoil::DateByte { place, at, byte } if place < lent => entries.dates[place][at] = byte,
        Spoil::FewerDates => drop(entries.dates.pop()),
        Spoil::MoreNumbers => entries.numbers.push([0; 30]),
        Spoil::NoRows => *entries = Entries::with_room(0),
        // a place that is not lent
        _ => {}
    }
}

impl Pair for Books {
    type Step = Step;

    fn start(chance: &mut Chance) -> Books {
        let first = chance.pick(&[1, 7, 999_999_999_999_995, 999_999_999_999_999]);
        Books::new(first, texts::start_day(chance), 1 + chance.below(10))
    }

    fn words(&self) -> String {
        let roosteryore::BookHead { first, frozen, .. } = self.proved.head;
        format!("{frozen} frozen, {} entries lent, receipts from {first}", self.entries.nums.len())
    }

    fn choose(&self, chance: &mut Chance) -> Step {
        let frozen = self.proved.head.frozen;
        let (number, kind, kopecks) = (texts::any_number(chance), texts::any_kind(chance), texts::any_kopecks(chance));
        let small = Buffer { room: chance.pick(&[512, 512, 512, 512, 600, 511]), fill: chance.byte() };
        let receipt = self.choose_receipt(chance);
        let action = chance.pick(&[Action::Payment, Action::Status, Action::Cancel]);
        match chance.below(24) {
            0..=5 => Step::Accept { number, kind, kopecks, date: texts::any_date(chance, frozen) },
            6 => Step::WriteCheck { number, kind, kopecks, out: small },
            7..=10 => Step::Write { action, receipt, reason: chance.between(0, 6), out: small },
            11..=15 => {
                let action = if chance.one_in(6) { Action::Check } else { action };
                Step::TakeAnswer { action, receipt, text: Text(texts::answer(chance, frozen)) }
            }
            16 | 17 => {
                let day = if chance.one_in(3) { texts::any_day(chance, frozen) } else { texts::next_day(frozen) };
                Step::Freeze { day }
            }
            18 => {
                let day = if chance.one_in(2) { texts::any_day(chance, frozen) } else { frozen };
                let room = chance.pick(&[65_536, 65_536, 70_000, 65_535]);
                Step::WriteRegistry { day, out: Buffer { room, fill: chance.byte() } }
            }
            19 | 20 => {
                let day = if chance.one_in(4) { texts::any_day(chance, frozen) } else { frozen };
                Step::TakeReport { day, marks: self.choose_marks(chance, day) }
            }
            21 => Step::Spoil(self.choose_spoil(chance)),
            _ => Step::Mend,
        }
    }

    fn take(&mut self, step: &Step) -> Result<u64, String> {
        match step {
            Step::Spoil(spoil) => self.spoil(spoil),
            Step::Mend => self.mend(),
            _ => {}
        }
        let (proved, twin) = (self.proved_takes(step), self.twin_takes(step));
        if proved != twin {
            return Err(format!("proved {proved:?}\ntwin   {twin:?}"));
        }
        if self.proved.rows != self.entries || sides::book_head(&self.proved.head) != self.head {
            return Err(format!("proved {:?}\ntwin   {:?} {:?}", self.proved, self.head, self.entries));
        }
        Ok(proved.code)
    }
}

#[cfg(test)]
mod tests {
    use super::*;

    #[test]
    fn a_byte_that_differs_is_told() {
        let mut books = Books::new(7, Day::new(2005, 9, 19), 2);
        assert_eq!(books.take(&Step::Mend), Ok(0));
        books.entries.dates[1][0] = 1;
        assert!(books.take(&Step::Mend).is_err(), "a byte of a place that is not in use");
    }
}
