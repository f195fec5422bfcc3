//! The gate's answers, written and read.

use crate::codes::*;
use crate::date::{self, Date};
use crate::fields;
use crate::request::Action;
use crate::scan::Scan;
use crate::writer::Writer;

const XML_LINE: &[u8] = b"<?xml version=\"1.0\" encoding=\"windows-1251\"?>";

/// What an answer says; its message follows from the code and is not kept when read.
#[derive(Clone, Copy, Debug, PartialEq, Eq)]
pub(crate) struct Answer {
    pub(crate) code: u64,
    pub(crate) authcode: Option<u64>,
    pub(crate) date: Option<Date>,
}

impl Answer {
    /// A code alone.
    pub(crate) fn bare(code: u64) -> Answer {
        Answer { code, authcode: None, date: None }
    }

    /// A code with the time at which it was given.
    pub(crate) fn timed(code: u64, clock: &Date) -> Answer {
        Answer { code, authcode: None, date: Some(*clock) }
    }

    /// What is said of the record at a place.
    pub(crate) fn of_record(code: u64, place: usize, date: &Date) -> Answer {
        Answer { code, authcode: Some(place as u64 + 1), date: Some(*date) }
    }

    fn message(&self) -> Option<&'static [u8]> {
        match self.code {
            TABLE_FULL => Some(b"table full"),
            BAD_REQUEST => Some(b"bad request"),
            BAD_REASON => Some(b"bad reason"),
            _ => None,
        }
    }

    /// Writes the answer and tells its length; 512 bytes are always enough.
    pub(crate) fn write(&self, out: &mut [u8]) -> usize {
        let mut writer = Writer::new(out);
        writer.put(XML_LINE).put(b"<response><code>").put_digits(self.code).put(b"</code>");
        if let Some(authcode) = self.authcode {
            writer.put(b"<authcode>").put_digits(authcode).put(b"</authcode>");
        }
        if let Some(date) = &self.date {
            writer.put(b"<date>").put(date).put(b"</date>");
        }
        if let Some(message) = self.message() {
            writer.put(b"<message>").put(message).put(b"</message>");
        }
        writer.put(b"</response>").written()
    }

    /// Reads an answer to a request of this action; none where its template does not allow the text.
    pub(crate) fn read(action: Action, text: &[u8]) -> Option<Answer> {
        let mut scan = Scan { rest: text };
        tag(&mut scan, XML_LINE)?;
        tag(&mut scan, b"<response>")?;
        let code = element(&mut scan, b"<code>", b"/code>", 4)?.and_then(|text| fields::read_digits(text, 4))?;
        let authcode = element(&mut scan, b"<authcode>", b"/authcode>", 15)?;
        let date = element(&mut scan, b"<date>", b"/date>", 19)?;
        element(&mut scan, b"<message>", b"/message>", 512)?;
        tag(&mut scan, b"</response>")?;
        let fits = match action {
            Action::Check => authcode.is_none() && date.is_none(),
            Action::Payment => date.is_some() || code == UNKNOWN_ACTION || code == BAD_REQUEST,
            Action::Status | Action::Cancel => true,
        };
        let authcode = optional(authcode, |text| fields::read_digits(text, 15))?;
        let date = optional(date, |text| Date::try_from(text).ok().filter(date::is_date))?;
        (fits && scan.rest.is_empty()).then_some(Answer { code, authcode, date })
    }
}

/// Steps over a tag after which blanks may stand.
fn tag(scan: &mut Scan, literal: &[u8]) -> Option<()> {
    scan.skip(literal)?;
    scan.skip_blanks();
    Some(())
}

/// The content of an element, `Some(None)` where another one stands; `close` is its closing tag without the `<`.
fn element<'a>(scan: &mut Scan<'a>, open: &[u8], close: &[u8], most: usize) -> Option<Option<&'a [u8]>> {
    if scan.skip(open).is_none() {
        return Some(None);
    }
    let content = scan.until(b'<', most)?;
    tag(scan, close)?;
    Some(Some(content))
}

/// What is absent may be so; what is there has to be readable.
fn optional<T>(text: Option<&[u8]>, reader: impl Fn(&[u8]) -> Option<T>) -> Option<Option<T>> {
    match text {
        None => Some(None),
        Some(text) => reader(text).map(Some),
    }
}

#[cfg(test)]
mod tests {
    use super::*;

    const CLOCK: Date = *b"2005-09-20T15:55:00";

    fn read(action: Action, body: &str) -> Option<Answer> {
        let text = [XML_LINE, b"<response>", body.as_bytes(), b"</response>"].concat();
        Answer::read(action, &text)
    }

    #[test]
    fn what_is_written_is_read() {
        use Action::{Cancel, Check, Payment, Status};
        let cases = [
            (Check, Answer::bare(0)),
            (Check, Answer::bare(TABLE_FULL)),
            (Payment, Answer::bare(BAD_REQUEST)),
            (Payment, Answer::bare(UNKNOWN_ACTION)),
            (Payment, Answer::timed(TABLE_FULL, &CLOCK)),
            (Status, Answer::of_record(WAS_CANCELLED, 4095, &CLOCK)),
            (Cancel, Answer::bare(BAD_REASON)),
        ];
        for (action, answer) in cases {
            let mut out = [7; 512];
            let len = answer.write(&mut out);
            assert_eq!(Answer::read(action, &out[..len]), Some(answer));
            assert_eq!(Answer::read(action, &out[..len - 1]), None);
            assert!(out[len..].iter().all(|&byte| byte == 7));
        }
    }

    #[test]
    fn templates_differ_by_action() {
        let dated = "<code>0</code><date>2005-09-20T15:55:00</date>";
        assert!(read(Action::Check, dated).is_none() && read(Action::Payment, dated).is_some());
        assert!(read(Action::Payment, "<code>9</code>").is_none() && read(Action::Cancel, "<code>9</code>").is_some());
        assert!(read(Action::Check, "<code>0</code><authcode>1</authcode>").is_none());
        assert_eq!(read(Action::Check, "<code>0007</code>").map(|answer| answer.code), Some(7));
        assert_eq!(read(Action::Status, "<code>0</code><authcode>000</authcode>").and_then(|a| a.authcode), Some(0));
    }

    #[test]
    fn blanks_stand_only_after_tags() {
        let spaced =
            b"<?xml version=\"1.0\" encoding=\"windows-1251\"?>\r\n<response> \t<code>0</code>\n\n</response>\r\n";
        assert!(Answer::read(Action::Check, spaced).is_some());
        for body in ["<code> 0</code>", "<code>0 </code>", "<code >0</code>", "x<code>0</code>", ""] {
            assert!(read(Action::Check, body).is_none(), "{body}");
        }
        assert!(Answer::read(Action::Check, &[b" ", &spaced[..]].concat()).is_none());
        assert!(Answer::read(Action::Check, &[&spaced[..], b"x"].concat()).is_none());
    }

    #[test]
    fn elements_have_limits() {
        let message = |len: usize| format!("<code>11</code><message>{}</message>", "\u{1}".repeat(len));
        assert!(read(Action::Check, &message(0)).is_some() && read(Action::Check, &message(512)).is_some());
        assert!(read(Action::Check, &message(513)).is_none());
        let bodies = [
            "<code>00000</code>",
            "<code></code>",
            "<code>-1</code>",
            "<code>0</code><authcode></authcode>",
            "<code>0</code><authcode>1234567890123456</authcode>",
            "<code>0</code><date>2005-09-31T15:55:00</date>",
            "<code>0</code><message></message><date>2005-09-20T15:55:00</date>",
            "<code>0</code><message>a<b</message>",
            "<code>0</code><code>0</code>",
            "<code>0</code><add>x</add>",
        ];
        for body in bodies {
            assert!(read(Action::Status, body).is_none(), "{body}");
        }
    }
}
