//! The gate's decisions, one for all ways of keeping the ledger.

use crate::answer::Answer;
use crate::codes::*;
use crate::date::{self, Date};
use crate::fields::{Number, TOP_KIND, TOP_KOPECKS};
use crate::ledger::Ledger;
use crate::payment::Payment;
use crate::request::{Action, Refusal, Request};

/// The most accounts of a gate.
pub(crate) const MOST_ACCOUNTS: usize = 256;
/// The most records of a table or a book.
pub(crate) const MOST_RECORDS: usize = 4096;
/// The least room for an answer, a request or a report.
pub(crate) const LEAST_BUFFER: usize = 512;

pub(crate) fn open(ledger: &mut impl Ledger, number: &Number, kind: u64) -> u64 {
    if !number.is_good() || kind > TOP_KIND {
        NO_ACCOUNT
    } else if ledger.account(number, kind).is_some() {
        ACCOUNT_OPEN
    } else if ledger.accounts() >= MOST_ACCOUNTS {
        NO_MORE_ACCOUNTS
    } else {
        ledger.add_account(number, kind);
        FINE
    }
}

pub(crate) fn draw(ledger: &mut impl Ledger, number: &Number, kind: u64, kopecks: u64) -> u64 {
    // A malformed number or type names no account either, and gives the same code.
    let Some(account) = ledger.account(number, kind) else { return NO_ACCOUNT };
    if kopecks == 0 || kopecks > TOP_KOPECKS || ledger.balance(account) < kopecks as i64 {
        return WRONG_DRAW;
    }
    ledger.draw_kopecks(account, kopecks);
    FINE
}

/// Answers a request; the code and the length of what was written.
pub(crate) fn deliver(ledger: &mut impl Ledger, clock: &Date, parameters: &[u8], out: &mut [u8]) -> (u64, usize) {
    if out.len() < LEAST_BUFFER {
        return (SHORT_BUFFER, 0);
    }
    if !date::is_date(clock) {
        return (BAD_CLOCK, 0);
    }
    let answer = match Request::read(parameters) {
        Ok(Request::Check { number, kind }) => check(ledger, &number, kind),
        Ok(Request::Payment(payment)) => pay(ledger, &payment, clock),
        Ok(Request::Status { receipt }) => status(ledger, receipt),
        Ok(Request::Cancel { receipt }) => cancel(ledger, receipt, clock),
        Err(Refusal { code, action: Some(Action::Payment) }) => Answer::timed(code, clock),
        Err(Refusal { code, .. }) => Answer::bare(code),
    };
    (answer.code, answer.write(out))
}

fn check(ledger: &impl Ledger, number: &Number, kind: u64) -> Answer {
    Answer::bare(match ledger.account(number, kind) {
        None => WRONG_ACCOUNT,
        Some(_) if ledger.is_full() => TABLE_FULL,
        Some(_) => FINE,
    })
}

fn pay(ledger: &mut impl Ledger, payment: &Payment, clock: &Date) -> Answer {
    if let Some(place) = ledger.record(payment.receipt) {
        return match ledger.view(place).agrees(payment) {
            true => standing(ledger, place),
            false => Answer::timed(WRONG_RECEIPT, clock),
        };
    }
    if is_closed(ledger, &payment.date) {
        return Answer::timed(WRONG_DATE, clock);
    }
    match ledger.account(&payment.number, payment.kind) {
        None => Answer::timed(WRONG_ACCOUNT, clock),
        Some(_) if ledger.is_full() => Answer::timed(TABLE_FULL, clock),
        Some(account) => {
            ledger.post(payment, account, clock);
            Answer::of_record(FINE, ledger.used() - 1, clock)
        }
    }
}

fn status(ledger: &impl Ledger, receipt: u64) -> Answer {
    ledger.record(receipt).map_or(Answer::bare(NO_PAYMENT), |place| standing(ledger, place))
}

fn cancel(ledger: &mut impl Ledger, receipt: u64, clock: &Date) -> Answer {
    let Some(place) = ledger.record(receipt) else { return Answer::bare(NOT_CANCELLED) };
    let record = ledger.view(place);
    if !record.done {
        return Answer::of_record(FINE, place, record.cancel);
    }
    let covered = || ledger.balance(ledger.account_of(place)) >= record.kopecks as i64;
    if is_closed(ledger, record.date) || !covered() {
        return Answer::bare(NOT_CANCELLED);
    }
    ledger.cancel(place, clock);
    Answer::of_record(FINE, place, clock)
}

/// How a recorded payment stands.
fn standing(ledger: &impl Ledger, place: usize) -> Answer {
    let record = ledger.view(place);
    match record.done {
        true => Answer::of_record(FINE, place, record.credit),
        false => Answer::of_record(WAS_CANCELLED, place, record.cancel),
    }
}

fn is_closed(ledger: &impl Ledger, date: &Date) -> bool {
    date::date_key(date) <= ledger.closed().key()
}

#[cfg(test)]
mod tests {
    use super::*;
    use crate::date::Day;
    use crate::owned::Gate;

    const CLOCK: Date = *b"2005-09-20T15:55:00";

    fn gate(room: usize) -> Gate {
        let mut gate = Gate::new(Day::new(2005, 9, 19), room);
        let number = Number::read(b"a").expect("good");
        assert_eq!(open(&mut gate, &number, 1), FINE);
        gate
    }

    fn ask(gate: &mut Gate, text: &str) -> (u64, String) {
        let mut out = [0; 512];
        let (code, len) = deliver(gate, &CLOCK, text.as_bytes(), &mut out);
        let text = String::from_utf8(out[..len].to_vec()).expect("plain");
        let body = text.split("</code>").nth(1).expect("a code").replace("</response>", "");
        (code, body)
    }

    const PAY: &str = "action=payment&number=a&amount=1&date=2005-09-20T10:00:00&receipt=";

    #[test]
    fn a_full_table_refuses_new_payments_only() {
        let mut gate = gate(1);
        assert_eq!(ask(&mut gate, "action=check&number=a&amount=1"), (0, String::new()));
        assert_eq!(ask(&mut gate, &format!("{PAY}1")).0, 0);
        assert_eq!(ask(&mut gate, &format!("{PAY}1")).0, 0);
        let full = "<message>table full</message>";
        let date = "<date>2005-09-20T15:55:00</date>";
        assert_eq!(ask(&mut gate, &format!("{PAY}2")), (30, format!("{date}{full}")));
        assert_eq!(ask(&mut gate, "action=check&number=a&amount=1"), (30, full.into()));
        assert_eq!(ask(&mut gate, "action=check&number=b&amount=1"), (2, String::new()));
    }

    #[test]
    fn answers_carry_what_their_code_and_action_call_for() {
        let mut gate = gate(9);
        let date = "<date>2005-09-20T15:55:00</date>";
        assert_eq!(ask(&mut gate, "action=payment&receipt=x"), (4, date.into()));
        assert_eq!(ask(&mut gate, "action=status&receipt=x"), (4, String::new()));
        assert_eq!(ask(&mut gate, "action=status&receipt=1"), (6, String::new()));
        assert_eq!(ask(&mut gate, "action=cancel&receipt=1&mes=1"), (9, String::new()));
        assert_eq!(ask(&mut gate, "action=cancel&receipt=1"), (32, "<message>bad reason</message>".into()));
        assert_eq!(ask(&mut gate, "action"), (31, "<message>bad request</message>".into()));
        assert_eq!(ask(&mut gate, "action=pay"), (1, String::new()));
        let record = format!("<authcode>1</authcode>{date}");
        assert_eq!(ask(&mut gate, &format!("{PAY}1")), (0, record.clone()));
        assert_eq!(ask(&mut gate, "action=status&receipt=1"), (0, record.clone()));
        assert_eq!(ask(&mut gate, "action=cancel&receipt=1&mes=1"), (0, record.clone()));
        assert_eq!(ask(&mut gate, "action=status&receipt=1"), (7, record));
    }

    #[test]
    fn draws_and_openings() {
        let mut gate = gate(9);
        let (number, other) = (Number::read(b"a").expect("good"), Number::read(b"b").expect("good"));
        assert_eq!(draw(&mut gate, &number, 1, 1), WRONG_DRAW);
        ask(&mut gate, &format!("{PAY}1"));
        for (kopecks, code) in
            [(0, WRONG_DRAW), (1_000_000_000, WRONG_DRAW), (101, WRONG_DRAW), (100, FINE), (1, WRONG_DRAW)]
        {
            assert_eq!(draw(&mut gate, &number, 1, kopecks), code);
        }
        assert_eq!(draw(&mut gate, &other, 1, 0), NO_ACCOUNT);
        assert_eq!(draw(&mut gate, &Number { bytes: [b'a'; 30], len: 31 }, 1, 0), NO_ACCOUNT);
        assert_eq!(open(&mut gate, &number, 1), ACCOUNT_OPEN);
        assert_eq!(open(&mut gate, &number, 1000), NO_ACCOUNT);
        assert_eq!((0..1000).filter(|&kind| open(&mut gate, &other, kind) == FINE).count(), 255);
        assert_eq!((open(&mut gate, &other, 999), open(&mut gate, &other, 0)), (NO_MORE_ACCOUNTS, ACCOUNT_OPEN));
    }
}
