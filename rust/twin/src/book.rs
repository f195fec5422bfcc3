//! The agent over rows that the caller lends, checked whole at each call.

use crate::answer::Answer;
use crate::asking;
use crate::codes::*;
use crate::date::{self, Date, Day};
use crate::entries::{self, ASKED, AUTHCODE, CANCEL_ASKED, CANCELLED, CREDITED, STATE, UNPOSTED};
use crate::fields::{self, Number, TOP_KIND, TOP_RECEIPT};
use crate::registry::{self, MOST_LINES};
use crate::request::Action;
use crate::rules::LEAST_BUFFER;
use crate::writer::Writer;

const LEAST_REGISTRY_BUFFER: usize = 65_536;

/// What the agent keeps besides the entries.
#[derive(Clone, Copy, Debug, PartialEq, Eq)]
pub struct Head {
    /// The receipt of the first entry.
    pub first: u64,
    /// How many entries are used.
    pub used: usize,
    /// The last frozen day.
    pub frozen: Day,
    /// Whether that day has its report.
    pub settled: bool,
}

/// The entries, one a place, in three columns of one length.
pub struct Rows<'a> {
    /// Receipt, length of the number, type, kopecks, state and authcode. States: 1 asked, 2 credited, 3 cancel-asked,
    /// 4 cancelled, 5 unposted.
    pub nums: &'a mut [[u64; 6]],
    /// The number's bytes.
    pub numbers: &'a mut [[u8; 30]],
    /// The payment's date.
    pub dates: &'a mut [Date],
}

impl Head {
    /// Takes a payment into the book; the code and the receipt given, 0 where refused.
    pub fn accept(&mut self, rows: Rows, number: Number, kind: u64, kopecks: u64, date: &Date) -> (u64, u64) {
        if !self.is_sound(&rows) {
            return (UNSOUND, 0);
        }
        let dated = date::is_date(date) && date::date_key(date) > self.frozen.key();
        if !is_good(&number, kind, kopecks) || !dated {
            return (WRONG_FIELD, 0);
        }
        let place = self.used;
        let receipt = self.first + place as u64;
        // Fewer entries than a day may have need no counting.
        let day_is_full = || place >= MOST_LINES && self.count_on(&rows, date::date_key(date)) >= MOST_LINES;
        if place == rows.nums.len() || receipt > TOP_RECEIPT || day_is_full() {
            return (BOOK_FULL, 0);
        }
        rows.nums[place] = [receipt, number.len as u64, kind, kopecks, ASKED, 0];
        rows.numbers[place] = number.bytes;
        rows.dates[place] = *date;
        self.used += 1;
        (FINE, receipt)
    }

    /// Writes a check; the code and the length of the request.
    pub fn write_check(&self, rows: Rows, number: Number, kind: u64, kopecks: u64, out: &mut [u8]) -> (u64, usize) {
        if !self.is_sound(&rows) {
            (UNSOUND, 0)
        } else if out.len() < LEAST_BUFFER {
            (SHORT_BUFFER, 0)
        } else if !is_good(&number, kind, kopecks) {
            (WRONG_FIELD, 0)
        } else {
            (FINE, asking::write_check(&number.bytes[..number.len], kind, kopecks, out))
        }
    }

    /// Writes a payment, status or cancel; the code and the length of the request. The reason is a cancel's alone. A
    /// check has no receipt and is a malformed field here.
    pub fn write(&self, rows: Rows, action: Action, receipt: u64, reason: u64, out: &mut [u8]) -> (u64, usize) {
        if !self.is_sound(&rows) {
            return (UNSOUND, 0);
        }
        if out.len() < LEAST_BUFFER {
            return (SHORT_BUFFER, 0);
        }
        let asks = action != Action::Check && (action != Action::Cancel || fields::is_reason(reason));
        if !asks || !fields::is_receipt(receipt) {
            return (WRONG_FIELD, 0);
        }
        let Some(place) = self.place(receipt) else { return (NOT_IN_BOOK, 0) };
        if self.is_frozen(&rows, place) || !may_write(action, rows.nums[place][STATE]) {
            return (FORBIDDEN, 0);
        }
        let len = match action {
            Action::Payment => asking::write_payment(&entries::payment(&rows, place), out),
            Action::Cancel => asking::write_cancel(receipt, reason, out),
            Action::Status | Action::Check => asking::write_status(receipt, out),
        };
        if action == Action::Cancel {
            rows.nums[place][STATE] = CANCEL_ASKED;
        }
        (FINE, len)
    }

    /// Takes the answer to a request of this action and receipt; the code. A check's receipt is not looked at.
    pub fn take_answer(&self, rows: Rows, action: Action, receipt: u64, text: &[u8]) -> u64 {
        if !self.is_sound(&rows) {
            return UNSOUND;
        }
        if action == Action::Check {
            return Answer::read(action, text).map_or(UNREADABLE, |_| FINE);
        }
        if !fields::is_receipt(receipt) {
            return WRONG_FIELD;
        }
        let Some(place) = self.place(receipt) else { return NOT_IN_BOOK };
        let Some(answer) = Answer::read(action, text) else { return UNREADABLE };
        if !self.is_frozen(&rows, place) {
            heed(&mut rows.nums[place], action, &answer);
        }
        FINE
    }

    /// Freezes the next day; the code.
    pub fn freeze(&mut self, rows: Rows, day: Day) -> u64 {
        if !self.is_sound(&rows) {
            UNSOUND
        } else if !day.is_real() {
            WRONG_DAY
        } else if !self.settled || self.frozen.day_after() != Some(day) {
            NOT_NEXT_DAY
        } else {
            (self.frozen, self.settled) = (day, false);
            FINE
        }
    }

    /// Writes the registry of a frozen day; the code and the length of the registry.
    pub fn write_registry(&self, rows: Rows, day: Day, out: &mut [u8]) -> (u64, usize) {
        if !self.is_sound(&rows) {
            return (UNSOUND, 0);
        }
        if out.len() < LEAST_REGISTRY_BUFFER {
            return (SHORT_BUFFER, 0);
        }
        if !day.is_real() || day > self.frozen {
            return (WRONG_DAY, 0);
        }
        let mut writer = Writer::new(out);
        self.listed(&rows, day).for_each(|place| registry::put_line(&mut writer, &entries::payment(&rows, place)));
        (FINE, writer.written())
    }

    /// Takes the report on a frozen day's registry; the code.
    pub fn take_report(&mut self, rows: Rows, day: Day, report: &[u8]) -> u64 {
        if !self.is_sound(&rows) {
            return UNSOUND;
        }
        if !day.is_real() || day > self.frozen {
            return WRONG_DAY;
        }
        // No more lines than a day may have, so the places fit; what is left over is not looked at.
        let mut places = [0; MOST_LINES];
        let count = self.listed(&rows, day).zip(&mut places).map(|(place, kept)| *kept = place).count();
        if report.len() != count || !report.iter().all(|mark| matches!(mark, b'0' | b'1')) {
            return WRONG_REPORT;
        }
        if day == self.frozen && !self.settled {
            for (&place, mark) in places.iter().zip(report) {
                rows.nums[place][STATE] = if *mark == b'1' { CREDITED } else { UNPOSTED };
            }
            self.settled = true;
        }
        FINE
    }
}

fn is_good(number: &Number, kind: u64, kopecks: u64) -> bool {
    number.is_good() && kind <= TOP_KIND && fields::is_kopecks(kopecks)
}

/// Whether an entry in this state lets the request be written, its day being open.
fn may_write(action: Action, state: u64) -> bool {
    match action {
        Action::Check | Action::Status => true,
        Action::Payment => state == ASKED,
        Action::Cancel => matches!(state, ASKED | CREDITED | CANCEL_ASKED),
    }
}

/// Moves an entry of an open day as an answer tells. A refusal moves nothing: a late copy may still succeed.
fn heed(nums: &mut [u64; 6], action: Action, answer: &Answer) {
    match (action, answer.code, nums[STATE]) {
        (Action::Payment | Action::Status, FINE, ASKED) => {
            nums[STATE] = CREDITED;
            nums[AUTHCODE] = answer.authcode.unwrap_or(nums[AUTHCODE]);
        }
        (Action::Cancel, FINE, ASKED | CANCEL_ASKED) | (_, WAS_CANCELLED, ASKED | CANCEL_ASKED) => {
            nums[STATE] = CANCELLED;
        }
        _ => {}
    }
}

#[cfg(test)]
mod tests {
    use super::*;

    #[test]
    fn states_let_requests_be_written() {
        let states = |action| (ASKED..=UNPOSTED).filter(|&state| may_write(action, state)).collect::<Vec<_>>();
        assert_eq!(states(Action::Payment), [ASKED]);
        assert_eq!(states(Action::Status), [ASKED, CREDITED, CANCEL_ASKED, CANCELLED, UNPOSTED]);
        assert_eq!(states(Action::Cancel), [ASKED, CREDITED, CANCEL_ASKED]);
    }

    #[test]
    fn answers_move_few_entries() {
        for (action, code, state) in [Action::Payment, Action::Status, Action::Cancel]
            .into_iter()
            .flat_map(|action| (0..100).flat_map(move |code| (1..=5).map(move |state| (action, code, state))))
        {
            let mut nums = [7, 1, 1, 100, state, 3];
            heed(&mut nums, action, &Answer { code, authcode: Some(9), date: None });
            let expected = match (action == Action::Cancel, code, state) {
                (false, 0, ASKED) => [CREDITED, 9],
                (true, 0, ASKED | CANCEL_ASKED) | (_, 7, ASKED | CANCEL_ASKED) => [CANCELLED, 3],
                _ => [state, 3],
            };
            assert_eq!(nums[STATE..], expected, "{action:?} {code} {state}");
        }
    }

    #[test]
    fn an_answer_without_authcode_leaves_the_stored_one() {
        let mut nums = [7, 1, 1, 100, ASKED, 3];
        heed(&mut nums, Action::Status, &Answer::bare(FINE));
        assert_eq!(nums, [7, 1, 1, 100, CREDITED, 3]);
    }
}
