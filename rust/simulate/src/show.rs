//! Steps and what they change, for people.
use crate::world::{Draw, Message, Step, World};
use roosteryore::{Action, Day, State};
use std::fmt::Write;

/// A request by its action and receipt; a check has none.
fn asked(action: Action, receipt: u64) -> String {
    match action {
        Action::Check => "check".into(),
        Action::Payment => format!("payment {receipt}"),
        Action::Status => format!("status {receipt}"),
        Action::Cancel => format!("cancel {receipt}"),
    }
}

/// Kopecks as roubles.
pub fn roubles(kopecks: u64) -> String {
    format!("{}.{:02}", kopecks / 100, kopecks % 100)
}

/// A step in words; a message is named by its place among what was sent.
pub fn step(world: &World, step: &Step) -> String {
    match *step {
        Step::Open { number, kind } => format!("gate opens {number}/{kind}"),
        Step::Draw(Draw { number, kind, kopecks }) => format!("gate draws {} from {number}/{kind}", roubles(kopecks)),
        Step::Accept { number, kind, kopecks, ref date } => {
            format!("agent accepts {} for {number}/{kind}, {}", roubles(kopecks), date.escape_ascii())
        }
        Step::WriteCheck { number, kind, kopecks, room } => {
            format!("agent writes check of {} for {number}/{kind}{}", roubles(kopecks), into(room))
        }
        Step::WritePayment { receipt, room } => format!("agent writes payment {receipt}{}", into(room)),
        Step::WriteStatus { receipt, room } => format!("agent writes status {receipt}{}", into(room)),
        Step::WriteCancel { receipt, room, .. } => format!("agent writes cancel {receipt}{}", into(room)),
        Step::Freeze { day } => format!("agent freezes {day}"),
        Step::WriteRegistry { day, room } => format!("agent writes registry of {day}{}", into(room)),
        Step::Deliver { message, ref clock, room } => {
            let what = self::message(&world.sent[message]);
            format!("net brings #{message}, {what}, {}{}", clock.escape_ascii(), into(room))
        }
    }
}

/// A buffer's size, where it is not the usual one.
fn into(room: usize) -> String {
    match room {
        roosteryore::REGISTRY_ROOM => String::new(),
        _ => format!(", into {room} bytes"),
    }
}

fn message(message: &Message) -> String {
    match message {
        Message::Request { action, receipt, .. } => format!("the {}", asked(*action, *receipt)),
        Message::Answer { action, receipt, .. } => format!("the answer to {}", asked(*action, *receipt)),
        Message::Registry { day, .. } => format!("the registry of {day}"),
        Message::Report { day, marks } => format!("the report {} of {day}", marks.escape_ascii()),
    }
}

/// What is compared before and after a step.
pub struct Snapshot {
    table: Vec<(u64, bool)>,
    book: Vec<(u64, State)>,
    closed: Day,
    settled: bool,
    sent: usize,
}

impl Snapshot {
    /// The states of all payments at both ends.
    pub fn of(world: &World) -> Snapshot {
        Snapshot {
            table: world.gate.records().map(|record| (record.payment.receipt, record.done)).collect(),
            book: world.book.entries().map(|entry| (entry.payment.receipt, entry.state)).collect(),
            closed: world.gate.head.closed,
            settled: world.book.head.settled,
            sent: world.sent.len(),
        }
    }

    /// What has changed since an earlier one, in words.
    pub fn since(&self, before: &Snapshot) -> String {
        let mut said = String::new();
        if self.sent > before.sent {
            write!(said, "; sent #{}", before.sent).expect("a string grows");
        }
        changes("table", &before.table, &self.table, |done| if *done { "done" } else { "cancelled" }.into(), &mut said);
        changes("book", &before.book, &self.book, |state| state_word(*state).into(), &mut said);
        if self.closed != before.closed {
            write!(said, "; the gate closes {}", self.closed).expect("a string grows");
        }
        if self.settled && !before.settled {
            said.push_str("; the day is settled");
        }
        said
    }
}

fn state_word(state: State) -> &'static str {
    match state {
        State::Asked => "asked",
        State::Credited => "credited",
        State::CancelAsked => "cancel-asked",
        State::Cancelled => "cancelled",
        State::Unposted => "unposted",
    }
}

/// Appends what is new or has changed in a list that only grows.
fn changes<S: PartialEq>(
    list: &str,
    before: &[(u64, S)],
    after: &[(u64, S)],
    word: impl Fn(&S) -> String,
    said: &mut String,
) {
    for (place, (receipt, state)) in after.iter().enumerate() {
        match before.get(place) {
            Some((_, old)) if old == state => {}
            Some((_, old)) => {
                write!(said, "; {list}: {receipt} {} -> {}", word(old), word(state)).expect("a string grows");
            }
            None => write!(said, "; {list}: {receipt} {}", word(state)).expect("a string grows"),
        }
    }
}
