//! Settling a day by its registry.

use crate::codes::*;
use crate::date::{self, Date, Day};
use crate::ledger::{Finder, Ledger};
use crate::payment::Payment;
use crate::registry;
use crate::rules::LEAST_BUFFER;

const POSTED: u8 = b'1';
const UNPOSTED: u8 = b'0';

/// Takes a registry and writes its report; the code and the length of the report.
pub(crate) fn settle(ledger: &mut impl Ledger, clock: &Date, day: Day, text: &[u8], report: &mut [u8]) -> (u64, usize) {
    if report.len() < LEAST_BUFFER {
        return (SHORT_BUFFER, 0);
    }
    if !date::is_date(clock) {
        return (BAD_CLOCK, 0);
    }
    let lines = match registry::read(text, day) {
        Ok(lines) => lines,
        Err(code) => return (code, 0),
    };
    let closed = ledger.closed();
    let is_next = day > closed && closed.day_after() == Some(day);
    if !day.is_real() || day > closed && !is_next {
        return (WRONG_DAY, 0);
    }
    let report = &mut report[..lines.len()];
    if is_next {
        close(ledger, clock, day, &lines, report);
    } else {
        review(ledger, &lines, report);
    }
    (FINE, lines.len())
}

/// Reports on a closed day from the records as they stand.
fn review(ledger: &impl Ledger, lines: &[Payment], report: &mut [u8]) {
    let mut finder = ledger.finder();
    for (line, mark) in lines.iter().zip(report) {
        let posted = finder.places(line.receipt).map(|place| ledger.view(place)).any(|r| r.done && r.agrees(line));
        *mark = if posted { POSTED } else { UNPOSTED };
    }
}

/// How the table stands to a line before the registry is carried out. Receipts of lines differ, so that carrying out
/// one line changes nothing for another but the room that is left.
enum Standing {
    Agreed(usize),
    Unrecorded,
    Otherwise,
}

/// Makes the table agree with the registry and closes the day.
fn close(ledger: &mut impl Ledger, clock: &Date, day: Day, lines: &[Payment], report: &mut [u8]) {
    let mut agreed = vec![false; ledger.used()];
    let standings = compare(ledger, lines, &mut agreed);
    for ((line, standing), mark) in lines.iter().zip(standings).zip(report) {
        *mark = if carry_out(ledger, clock, line, standing) { POSTED } else { UNPOSTED };
    }
    // Records posted just now have their line, so that only the earlier ones are gone through.
    let key = day.key();
    for (place, _) in agreed.iter().enumerate().filter(|(_, agreed)| !**agreed) {
        let record = ledger.view(place);
        if record.done && date::date_key(record.date) == key {
            ledger.cancel(place, clock);
        }
    }
    ledger.close_day(day);
}

/// Finds each line's record, the first that agrees, and marks every record that agrees with a line.
fn compare(ledger: &impl Ledger, lines: &[Payment], agreed: &mut [bool]) -> Vec<Standing> {
    let mut finder = ledger.finder();
    let mut standing_of = |line: &Payment| {
        let mut standing = Standing::Unrecorded;
        for place in finder.places(line.receipt) {
            agreed[place] = ledger.view(place).agrees(line);
            standing = match standing {
                Standing::Agreed(first) => Standing::Agreed(first),
                _ if agreed[place] => Standing::Agreed(place),
                _ => Standing::Otherwise,
            };
        }
        standing
    };
    lines.iter().map(&mut standing_of).collect()
}

/// Whether the line has a done record in the end.
fn carry_out(ledger: &mut impl Ledger, clock: &Date, line: &Payment, standing: Standing) -> bool {
    match standing {
        Standing::Otherwise => false,
        Standing::Agreed(place) => {
            if !ledger.view(place).done {
                ledger.restore(place);
            }
            true
        }
        Standing::Unrecorded if ledger.is_full() => false,
        Standing::Unrecorded => match ledger.account(&line.number, line.kind) {
            None => false,
            Some(account) => {
                ledger.post(line, account, clock);
                true
            }
        },
    }
}

#[cfg(test)]
mod tests {
    use super::*;
    use crate::fields::Number;
    use crate::owned::Gate;
    use crate::rules;

    const CLOCK: Date = *b"2005-09-21T01:00:00";
    const DAY: Day = Day::new(2005, 9, 20);

    fn gate(room: usize, receipts: &[u64]) -> Gate {
        let mut gate = Gate::new(Day::new(2005, 9, 19), room);
        gate.open(Number::read(b"a").expect("good"), 1);
        for receipt in receipts {
            let text = format!("action=payment&number=a&amount=1&date=2005-09-20T10:00:00&receipt={receipt}");
            assert_eq!(rules::deliver(&mut gate, &CLOCK, text.as_bytes(), &mut [0; 512]).0, FINE);
        }
        gate
    }

    fn lines(receipts: &[u64]) -> Vec<u8> {
        receipts.iter().flat_map(|r| format!("a\t1\t2005-09-20T10:00:00\t1.00\t{r}\r\n").into_bytes()).collect()
    }

    fn run(gate: &mut Gate, day: Day, text: &[u8]) -> (u64, Vec<u8>) {
        let mut report = [b'#'; 512];
        let (code, len) = settle(gate, &CLOCK, day, text, &mut report);
        assert!(report[len..].iter().all(|&byte| byte == b'#'));
        (code, report[..len].to_vec())
    }

    #[test]
    fn keeps_posts_and_sweeps() {
        let mut gate = gate(9, &[5, 3, 8]);
        assert_eq!(run(&mut gate, DAY, &lines(&[3, 4, 8])), (FINE, b"111".to_vec()));
        assert_eq!(gate.balances(), [300]);
        let done: Vec<_> = gate.records().map(|record| (record.payment.receipt, record.done)).collect();
        assert_eq!(done, [(5, false), (3, true), (8, true), (4, true)]);
        assert_eq!(run(&mut gate, DAY, &lines(&[3, 4, 5, 6])), (FINE, b"1100".to_vec()));
        assert_eq!(gate.balances(), [300]);
    }

    #[test]
    fn posts_while_there_is_room() {
        let mut gate = gate(3, &[5]);
        assert_eq!(run(&mut gate, DAY, &lines(&[1, 2, 3, 5])), (FINE, b"1101".to_vec()));
        assert_eq!(gate.records().len(), 3);
    }

    #[test]
    fn other_details_leave_unposted_and_swept() {
        let mut gate = gate(9, &[5]);
        assert_eq!(run(&mut gate, DAY, b"a\t1\t2005-09-20T10:00:00\t1.01\t5\r\n"), (FINE, b"0".to_vec()));
        assert_eq!(gate.balances(), [0]);
        assert_eq!(run(&mut gate, Day::new(2005, 9, 21), b"b\t1\t2005-09-21T10:00:00\t1\t6\r\n").1, b"0");
    }

    #[test]
    fn leaves_other_days_alone() {
        let mut gate = gate(9, &[5]);
        let later = b"action=payment&number=a&amount=3&date=2005-09-21T10:00:00&receipt=6";
        assert_eq!(rules::deliver(&mut gate, &CLOCK, later, &mut [0; 512]).0, FINE);
        assert_eq!(run(&mut gate, DAY, &lines(&[6])), (FINE, b"0".to_vec()));
        assert_eq!(gate.records().map(|record| record.done).collect::<Vec<_>>(), [false, true]);
        assert_eq!(gate.balances(), [300]);
    }

    #[test]
    fn days_and_buffers() {
        let mut gate = gate(9, &[]);
        for day in [Day::new(2005, 9, 21), Day::new(2005, 9, 31), Day::new(2105, 9, 20), Day::new(0, 0, 0)] {
            assert_eq!(run(&mut gate, day, b""), (WRONG_DAY, vec![]));
        }
        assert_eq!(settle(&mut gate, &[0; 19], DAY, b"x", &mut [0; 511]), (SHORT_BUFFER, 0));
        assert_eq!(settle(&mut gate, &[0; 19], DAY, b"x", &mut [0; 512]), (BAD_CLOCK, 0));
        gate.close(Day::new(2099, 12, 31));
        assert_eq!(run(&mut gate, Day::new(2099, 12, 31), b""), (FINE, vec![]));
        assert_eq!(run(&mut gate, Day::new(2100, 1, 1), b""), (WRONG_DAY, vec![]));
    }
}
