//! Reading the parameters of a request.

use crate::codes::*;
use crate::date::{self, Date};
use crate::fields::{self, Number};
use crate::payment::Payment;

/// What a request asks for.
#[derive(Clone, Copy, Debug, PartialEq, Eq)]
pub enum Action {
    /// Whether a payment could be made.
    Check,
    /// To credit a payment.
    Payment,
    /// How a payment stands.
    Status,
    /// To take a payment back.
    Cancel,
}

/// A request whose fields are all well-formed.
pub(crate) enum Request {
    Check { number: Number, kind: u64 },
    Payment(Payment),
    Status { receipt: u64 },
    Cancel { receipt: u64 },
}

/// Why a text is no request; the action is known unless the text has no readable one.
#[derive(Debug, PartialEq, Eq)]
pub(crate) struct Refusal {
    pub(crate) code: u64,
    pub(crate) action: Option<Action>,
}

const LONGEST: usize = 2048;

impl Request {
    pub(crate) fn read(text: &[u8]) -> Result<Request, Refusal> {
        let early = |code| Refusal { code, action: None };
        let values = Values::split(text).ok_or(early(BAD_REQUEST))?;
        let action = values.read(ACTION, read_action).ok_or(early(UNKNOWN_ACTION))?;
        values.request(action).map_err(|code| Refusal { code, action: Some(action) })
    }
}

// The places of the known names among the values.
const ACTION: usize = 0;
const NUMBER: usize = 1;
const KIND: usize = 2;
const AMOUNT: usize = 3;
const RECEIPT: usize = 4;
const DATE: usize = 5;
const REASON: usize = 6;

fn known_name(name: &[u8]) -> Option<usize> {
    match name {
        b"action" => Some(ACTION),
        b"number" => Some(NUMBER),
        b"type" => Some(KIND),
        b"amount" => Some(AMOUNT),
        b"receipt" => Some(RECEIPT),
        b"date" => Some(DATE),
        b"mes" => Some(REASON),
        _ => None,
    }
}

fn read_action(text: &[u8]) -> Option<Action> {
    match text {
        b"check" => Some(Action::Check),
        b"payment" => Some(Action::Payment),
        b"status" => Some(Action::Status),
        b"cancel" => Some(Action::Cancel),
        _ => None,
    }
}

pub(crate) fn read_date(text: &[u8]) -> Option<Date> {
    Date::try_from(text).ok().filter(date::is_date)
}

/// The values of the known names, still coded.
struct Values<'a>([Option<&'a [u8]>; 7]);

impl<'a> Values<'a> {
    /// None where the text as a whole is bad, whatever it asks for.
    fn split(text: &'a [u8]) -> Option<Values<'a>> {
        let mut values = Values([None; 7]);
        if text.len() > LONGEST {
            return None;
        }
        for piece in text.split(|&byte| byte == b'&').filter(|piece| !piece.is_empty()) {
            let equals = piece.iter().position(|&byte| byte == b'=')?;
            let value = &piece[equals + 1..];
            let place = known_name(&piece[..equals]);
            let twice = place.is_some_and(|place| values.0[place].replace(value).is_some());
            if twice || !has_good_escapes(value) {
                return None;
            }
        }
        Some(values)
    }

    /// A value decoded and read; none where it is absent or malformed.
    fn read<T>(&self, place: usize, reader: impl Fn(&[u8]) -> Option<T>) -> Option<T> {
        let value = self.0[place]?;
        if !value.contains(&b'%') {
            return reader(value);
        }
        let mut room = [0; DECODED];
        let len = decode(value, &mut room);
        reader(&room[..len])
    }

    fn account(&self) -> Option<(Number, u64)> {
        let number = self.read(NUMBER, Number::read)?;
        let kind = match self.0[KIND] {
            None => fields::USUAL_KIND,
            Some(_) => self.read(KIND, fields::read_kind)?,
        };
        Some((number, kind))
    }

    /// The fields of this action in the order in which faults count.
    fn request(&self, action: Action) -> Result<Request, u64> {
        let receipt = || self.read(RECEIPT, fields::read_receipt).ok_or(WRONG_RECEIPT);
        let account = || self.account().ok_or(WRONG_ACCOUNT);
        let amount = || self.read(AMOUNT, fields::read_amount).ok_or(WRONG_AMOUNT);
        match action {
            Action::Check => {
                let (number, kind) = account()?;
                amount()?;
                Ok(Request::Check { number, kind })
            }
            Action::Payment => {
                let receipt = receipt()?;
                let (number, kind) = account()?;
                let kopecks = amount()?;
                let date = self.read(DATE, read_date).ok_or(WRONG_DATE)?;
                Ok(Request::Payment(Payment { receipt, number, kind, kopecks, date }))
            }
            Action::Status => Ok(Request::Status { receipt: receipt()? }),
            Action::Cancel => {
                let receipt = receipt()?;
                self.read(REASON, fields::read_reason).ok_or(BAD_REASON)?;
                Ok(Request::Cancel { receipt })
            }
        }
    }
}

fn has_good_escapes(value: &[u8]) -> bool {
    let mut rest = value;
    while let Some(at) = rest.iter().position(|&byte| byte == b'%') {
        match rest[at + 1..] {
            [high, low, ..] if high.is_ascii_hexdigit() && low.is_ascii_hexdigit() => rest = &rest[at + 3..],
            _ => return false,
        }
    }
    true
}

/// One byte more than the longest good value, so that a value cut at this length is still too long.
const DECODED: usize = 31;

/// Decodes good escapes as far as the room goes and tells how much of it was used.
fn decode(value: &[u8], room: &mut [u8; DECODED]) -> usize {
    let (mut rest, mut len) = (value, 0);
    while len < DECODED {
        (room[len], rest) = match *rest {
            [b'%', high, low, ..] => (hex(high) << 4 | hex(low), &rest[3..]),
            [byte, ..] => (byte, &rest[1..]),
            [] => break,
        };
        len += 1;
    }
    len
}

fn hex(digit: u8) -> u8 {
    // Letters of either case end in the bits 1 to 6.
    if digit.is_ascii_digit() { digit - b'0' } else { (digit & 7) + 9 }
}

#[cfg(test)]
mod tests {
    use super::*;

    fn fault(text: &[u8]) -> u64 {
        Request::read(text).err().map_or(FINE, |refusal| refusal.code)
    }

    const GOOD: &[u8] = b"action=payment&number=a1&amount=1&receipt=7&date=2005-09-20T15:53:00";

    #[test]
    fn bad_as_a_whole_comes_before_the_action() {
        let long = [GOOD, b"&x=", &[b'y'; 2048 - 68 - 3]].concat();
        assert_eq!((long.len(), fault(&long)), (2048, FINE));
        assert_eq!(fault(&[&long[..], b"&"].concat()), BAD_REQUEST);
        for text in [&b"a"[..], b"action", b"x=%", b"x=%0", b"x=%0g", b"mes=1&mes=1", b"=%zz", b"date=&x=&date="] {
            assert_eq!(Request::read(text).err(), Some(Refusal { code: BAD_REQUEST, action: None }), "{text:?}");
        }
        for text in [&b""[..], b"&&", b"=", b"x%zz=1", b"%61ction=check", b"action=", b"action=Check", b"x=1&x=1"] {
            assert_eq!(fault(text), UNKNOWN_ACTION, "{text:?}");
        }
    }

    #[test]
    fn fields_fault_in_order() {
        let cases: [(&[u8], u64); 10] = [
            (b"action=payment&receipt=0&number=&amount=x&date=x", WRONG_RECEIPT),
            (b"action=payment&receipt=1&number=&amount=x&date=x", WRONG_ACCOUNT),
            (b"action=payment&receipt=1&number=1&type=&amount=x&date=x", WRONG_ACCOUNT),
            (b"action=payment&receipt=1&number=1&type=2&amount=x&date=x", WRONG_AMOUNT),
            (b"action=payment&receipt=1&number=1&amount=2&date=x", WRONG_DATE),
            (b"action=check&number=1&amount=2&receipt=x&date=x&mes=x", FINE),
            (b"action=check&number=1", WRONG_AMOUNT),
            (b"action=cancel&mes=9", WRONG_RECEIPT),
            (b"action=cancel&receipt=1", BAD_REASON),
            (b"action=status&receipt=1&mes=x", FINE),
        ];
        for (text, code) in cases {
            assert_eq!(fault(text), code, "{text:?}");
        }
    }

    #[test]
    fn values_are_decoded_once() {
        let text = b"action=%70aymen%74&number=%2525+%7e&amount=%31.5&receipt=%30%37&date=2005-09-20T15%3A53%3a00";
        let Ok(Request::Payment(payment)) = Request::read(text) else { panic!("readable") };
        assert_eq!(&payment.number.bytes[..payment.number.len], b"%25+~");
        assert_eq!((payment.kopecks, payment.receipt, payment.kind), (150, 7, 1));
        let coded = |count: usize| [b"action=check&amount=1&number=", "%41".repeat(count).as_bytes()].concat();
        assert_eq!((fault(&coded(30)), fault(&coded(31)), fault(&coded(600))), (FINE, WRONG_ACCOUNT, WRONG_ACCOUNT));
    }
}
