//! Both ends, what was sent between them, and the steps.
use roosteryore::{Action, Book, Date, Day, Entries, Fault, Gate, Number, Table};
use std::collections::BTreeSet;

/// What was sent. It keeps its bytes, and its day or its request's action and receipt.
#[derive(Clone, Debug)]
#[allow(missing_docs)]
pub enum Message {
    Request { action: Action, receipt: u64, text: Vec<u8> },
    Answer { action: Action, receipt: u64, text: Vec<u8> },
    Registry { day: Day, text: Vec<u8> },
    Report { day: Day, marks: Vec<u8> },
}

/// A draw that was granted.
#[derive(Clone, Copy, Debug)]
pub struct Draw {
    /// The account's number.
    pub number: Number,
    /// The account's type.
    pub kind: u64,
    /// How much.
    pub kopecks: u64,
}

/// A step, with every argument free.
#[derive(Clone, Debug)]
#[allow(missing_docs)]
pub enum Step {
    Open { number: Number, kind: u64 },
    Draw(Draw),
    Accept { number: Number, kind: u64, kopecks: u64, date: Date },
    WriteCheck { number: Number, kind: u64, kopecks: u64, room: usize },
    WritePayment { receipt: u64, room: usize },
    WriteStatus { receipt: u64, room: usize },
    WriteCancel { receipt: u64, reason: u64, room: usize },
    Freeze { day: Day },
    WriteRegistry { day: Day, room: usize },
    Deliver { message: usize, clock: Date, room: usize },
}

/// The gate, the agent's book, and what passed between them since the start.
#[derive(Clone, Debug)]
pub struct World {
    /// The gate with its table.
    pub gate: Gate,
    /// The agent's book.
    pub book: Book,
    /// What was sent, in its order.
    pub sent: Vec<Message>,
    /// What was drawn.
    pub draws: Vec<Draw>,
    /// The starting day, and each day of which a report was delivered.
    pub settled: BTreeSet<Day>,
}

impl World {
    /// No accounts, no payments, nothing sent; the same day is closed and frozen.
    pub fn new(day: Day, first: u64, table: usize, book: usize) -> World {
        World {
            gate: Gate::new(day, Table::with_room(table)),
            book: Book::new(first, day, Entries::with_room(book)),
            sent: Vec::new(),
            draws: Vec::new(),
            settled: BTreeSet::from([day]),
        }
    }

    /// Takes a step and gives its code; what it sends is the last of what was sent.
    pub fn take(&mut self, step: &Step) -> u64 {
        code(match *step {
            Step::Open { number, kind } => self.gate.open_account(number, kind),
            Step::Draw(draw) => self.draw(draw),
            Step::Accept { number, kind, kopecks, ref date } => {
                self.book.accept(number, kind, kopecks, date).map(|_receipt| ())
            }
            Step::WriteCheck { number, kind, kopecks, room } => {
                self.request(Action::Check, 0, room, |book, out| book.write_check(number, kind, kopecks, out))
            }
            Step::WritePayment { receipt, room } => {
                self.request(Action::Payment, receipt, room, |book, out| book.write_payment(receipt, out))
            }
            Step::WriteStatus { receipt, room } => {
                self.request(Action::Status, receipt, room, |book, out| book.write_status(receipt, out))
            }
            Step::WriteCancel { receipt, reason, room } => {
                self.request(Action::Cancel, receipt, room, |book, out| book.write_cancel(receipt, reason, out))
            }
            Step::Freeze { day } => self.book.freeze(day),
            Step::WriteRegistry { day, room } => self.write_registry(day, room),
            Step::Deliver { message, ref clock, room } => return self.deliver(message, clock, room),
        })
    }

    fn draw(&mut self, draw: Draw) -> Result<(), Fault> {
        self.gate.draw_funds(draw.number, draw.kind, draw.kopecks)?;
        self.draws.push(draw);
        Ok(())
    }

    fn request(
        &mut self,
        action: Action,
        receipt: u64,
        room: usize,
        write: impl for<'a> FnOnce(&mut Book, &'a mut [u8]) -> Result<&'a [u8], Fault>,
    ) -> Result<(), Fault> {
        let text = write(&mut self.book, &mut buffer(room))?.to_vec();
        self.sent.push(Message::Request { action, receipt, text });
        Ok(())
    }

    fn write_registry(&mut self, day: Day, room: usize) -> Result<(), Fault> {
        let text = self.book.write_registry(day, &mut buffer(room))?.to_vec();
        self.sent.push(Message::Registry { day, text });
        Ok(())
    }

    fn deliver(&mut self, message: usize, clock: &Date, room: usize) -> u64 {
        let mut out = buffer(room);
        match self.sent[message].clone() {
            Message::Request { action, receipt, text } => match self.gate.deliver(clock, &text, &mut out) {
                Ok(answer) => {
                    self.sent.push(Message::Answer { action, receipt, text: answer.text.to_vec() });
                    answer.code
                }
                Err(fault) => fault.code(),
            },
            Message::Registry { day, text } => code(self.gate.settle(clock, day, &text, &mut out).map(|marks| {
                self.sent.push(Message::Report { day, marks: marks.to_vec() });
            })),
            Message::Answer { action, receipt, text } => code(self.book.take_answer(action, receipt, &text)),
            Message::Report { day, marks } => {
                self.settled.insert(day);
                code(self.book.take_report(day, &marks))
            }
        }
    }
}

/// A buffer that holds other bytes already.
fn buffer(room: usize) -> Vec<u8> {
    vec![b'?'; room]
}

fn code(result: Result<(), Fault>) -> u64 {
    result.map_or_else(Fault::code, |()| 0)
}
