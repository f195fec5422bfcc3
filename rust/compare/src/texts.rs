//! Random values and texts: good, nearly good, and damaged.
use chance::Chance;
use roosteryore::{Date, Day, Number, Payment};

/// The days on which scripts start: before a leap day, a year's end, the calendar's end, and that of the sample cases.
const STARTS: [Day; 4] = [Day::new(2024, 2, 27), Day::new(2005, 12, 29), Day::new(2099, 12, 29), Day::new(2005, 9, 19)];

/// The numbers of accounts.
const NAMES: [&[u8]; 7] = [
    b"account12",
    b"a",
    b"a1",
    b"+7(916)643-84-76",
    b"~!\"#$%&'()*+,-./:;<=>?@[]^_`{",
    b"\xD5\xEE\xF0-\xA8\xB8",
    b"\xC0\xC1\xC2\xC3\xC4\xC5\xC6\xC7\xC8\xC9\xCA\xCB\xCC\xCD\xCE\xEF\xF0\xF1\xF2\xF3\xF4\xF5\xF6\xF7\xF8\xF9\xFA\xFB\xFC\xFF",
];

/// What may stand in the place of a byte.
const BYTES: &[u8] = b"0159-.:TZ \t\r\n<>&=%+/?a\0\x7F\xFF";

/// A day to start on.
pub fn start_day(chance: &mut Chance) -> Day {
    chance.pick(&STARTS)
}

/// A day as the twin counts it on, or the same where there is none.
pub fn next_day(day: Day) -> Day {
    let own = crate::sides::day(day);
    let next = if own.is_real() { own.day_after() } else { None };
    next.map_or(day, |next| Day::new(next.year, next.month, next.day))
}

/// A day up to three after this one.
pub fn day_after(chance: &mut Chance, day: Day) -> Day {
    (0..chance.below(4)).fold(day, |day, _| next_day(day))
}

/// A day near this one, now and then one that is none.
pub fn any_day(chance: &mut Chance, day: Day) -> Day {
    match chance.below(16) {
        0 => Day { day: 0, ..day },
        1 => Day { month: 13, ..day },
        2 => Day { day: 31, month: 2, ..day },
        3 => Day { year: 2100, ..day },
        _ => day_after(chance, day),
    }
}

/// A time of a day.
pub fn date_on(chance: &mut Chance, day: Day) -> Date {
    let [hours, minutes, seconds] = [24, 60, 60].map(|most| chance.below(most));
    let text = format!("{day}T{hours:02}:{minutes:02}:{seconds:02}");
    text.as_bytes().try_into().expect("nineteen bytes")
}

/// A date near a day, now and then with a wrong byte, or with two digits at the edge of their range.
pub fn any_date(chance: &mut Chance, day: Day) -> Date {
    const EDGES: [&[u8]; 11] = [b"00", b"01", b"12", b"13", b"23", b"24", b"30", b"31", b"32", b"59", b"60"];
    let day = day_after(chance, day);
    let mut date = date_on(chance, day);
    match chance.below(32) {
        0 => date[chance.below(19)] = chance.pick(BYTES),
        1 => {
            let at = chance.pick(&[5, 8, 11, 14, 17]);
            date[at..at + 2].copy_from_slice(chance.pick(&EDGES));
        }
        _ => {}
    }
    date
}

/// A well-formed number.
pub fn number(chance: &mut Chance) -> Number {
    Number::new(chance.pick(&NAMES)).expect("the names are numbers")
}

/// A number, now and then a malformed one, or one with bytes past its length.
pub fn any_number(chance: &mut Chance) -> Number {
    let mut number = number(chance);
    match chance.below(40) {
        0 => number.len = 0,
        1 => number.len = 31,
        2 => number.len = usize::MAX,
        3 => number.bytes[0] = b' ',
        4 => number.bytes[0] = 0x7F,
        5 => number.bytes[29] = 0xFF,
        6 => number.bytes[0] = chance.pick(&[0xA7, 0xA8, 0xA9, 0xB7, 0xB8, 0xB9, 0xBF, 0xC0]),
        _ => {}
    }
    number
}

/// A type of two, now and then another.
pub fn any_kind(chance: &mut Chance) -> u64 {
    match chance.below(40) {
        0 => 1000,
        1 => 999,
        2 => u64::MAX,
        _ => chance.between(0, 1),
    }
}

/// A well-formed amount: small, round, or the largest.
pub fn kopecks(chance: &mut Chance) -> u64 {
    match chance.below(8) {
        0 => 999_999_999,
        1 => chance.between(1, 9),
        2 => 100 * chance.between(1, 50),
        _ => chance.between(1, 5000),
    }
}

/// An amount, now and then out of range.
pub fn any_kopecks(chance: &mut Chance) -> u64 {
    match chance.below(30) {
        0 => chance.pick(&[0, 1_000_000_000, u64::MAX]),
        _ => kopecks(chance),
    }
}

/// Changes a text in one place: a byte, one more, one less, a piece twice, or the rest gone.
pub fn damage(chance: &mut Chance, text: &mut Vec<u8>) {
    if text.is_empty() {
        return;
    }
    let at = chance.below(text.len());
    match chance.below(6) {
        0 => text.truncate(at),
        1 => text.insert(at, chance.pick(BYTES)),
        2 => drop(text.remove(at)),
        3 => text[at] = chance.byte(),
        4 => {
            let piece = text[at..(at + 1 + chance.below(40)).min(text.len())].to_vec();
            text.splice(at..at, piece);
        }
        _ => text[at] = chance.pick(BYTES),
    }
}

/// An amount's text, in any of its forms or malformed.
fn amount_text(chance: &mut Chance, kopecks: u64) -> String {
    const BAD: [&str; 9] = ["", "0", "0.00", "10.", "10.125", "10000000", ".5", "1..2", "-1"];
    match chance.below(12) {
        0 => chance.pick(&BAD).into(),
        1 if kopecks % 100 == 0 => format!("{}", kopecks / 100),
        2 if kopecks % 10 == 0 => format!("{}.{}", kopecks / 100, kopecks / 10 % 10),
        3 => format!("{:07}.{:02}", kopecks / 100, kopecks % 100),
        _ => amount(kopecks),
    }
}

/// An amount as writers give it.
fn amount(kopecks: u64) -> String {
    format!("{}.{:02}", kopecks / 100, kopecks % 100)
}

/// A receipt's text, with zeros or malformed.
fn receipt_text(chance: &mut Chance, receipt: u64) -> String {
    const BAD: [&str; 6] = ["", "0", "000000000000000", "1234567890123456", "1a", " 1"];
    match chance.below(14) {
        0 => chance.pick(&BAD).into(),
        1 => format!("{receipt:015}"),
        2 => "999999999999999".into(),
        _ => receipt.to_string(),
    }
}

/// A value url-coded, with more escapes than it needs, of either case; letters of windows-1251 stand raw too.
fn push_coded(chance: &mut Chance, value: &[u8], out: &mut Vec<u8>) {
    for &byte in value {
        let plain = byte.is_ascii_alphanumeric() || b"-.:+".contains(&byte) || !byte.is_ascii();
        match (plain && !chance.one_in(20), chance.one_in(2)) {
            (true, _) => out.push(byte),
            (false, true) => out.extend(format!("%{byte:02X}").bytes()),
            (false, false) => out.extend(format!("%{byte:02x}").bytes()),
        }
    }
}

/// A payment near a closed day; now and then its date is none.
pub fn payment(chance: &mut Chance, closed: Day, receipt: u64) -> Payment {
    let (number, kind) = (number(chance), chance.between(0, 1));
    Payment { receipt, number, kind, kopecks: kopecks(chance), date: any_date(chance, closed) }
}

/// What a request tells: a known payment, one of its values now and then another, or any.
fn told(chance: &mut Chance, closed: Day, known: &[Payment]) -> Payment {
    let receipt = chance.between(1, 12);
    let mut told = payment(chance, closed, receipt);
    if known.is_empty() || chance.one_in(2) {
        return told;
    }
    let other = told;
    told = chance.pick(known);
    match chance.below(16) {
        0 => told.number = other.number,
        1 => told.kind = other.kind,
        2 => told.kopecks = other.kopecks,
        3 => told.date = other.date,
        4 => told = Payment { receipt: told.receipt, ..other },
        _ => {}
    }
    told
}

/// A type's text, in any of its forms or malformed; `None` where it is left out, which tells 1.
fn kind_text(chance: &mut Chance, kind: u64) -> Option<String> {
    match chance.below(14) {
        0 => Some(chance.pick(&["", "1000"]).into()),
        1 => Some(format!("{kind:03}")),
        2..=5 if kind == 1 => None,
        _ => Some(kind.to_string()),
    }
}

/// The names and values of a request, in the writer's order.
fn request_fields(chance: &mut Chance, closed: Day, known: &[Payment], action: &str) -> Vec<(&'static str, Vec<u8>)> {
    let told = told(chance, closed, known);
    let mut fields = vec![("action", action.into())];
    if matches!(action, "check" | "payment") || chance.one_in(10) {
        fields.push(("number", told.number.as_bytes().to_vec()));
        if let Some(kind) = kind_text(chance, told.kind) {
            fields.push(("type", kind.into()));
        }
        fields.push(("amount", amount_text(chance, told.kopecks).into()));
    }
    if action != "check" || chance.one_in(10) {
        fields.push(("receipt", receipt_text(chance, told.receipt).into()));
    }
    if action == "payment" || chance.one_in(10) {
        fields.push(("date", told.date.to_vec()));
    }
    if action == "cancel" || chance.one_in(10) {
        fields.push(("mes", if chance.one_in(8) { chance.pick(&["0", "6", "01", ""]) } else { "5" }.into()));
    }
    fields
}

/// The parameters of a request near a closed day, half of them of a known payment; some are wrong.
pub fn parameters(chance: &mut Chance, closed: Day, known: &[Payment]) -> Vec<u8> {
    const ACTIONS: [&str; 12] = [
        "payment", "payment", "payment", "payment", "payment", "check", "status", "status", "cancel", "cancel",
        "cancel", "cancel",
    ];
    const TAILS: [&str; 8] =
        ["&&", "&x%zz=1", "&=x", "&y=%4", "&y=%4g", "&piece", "&action=check", "&additional=x%20y"];
    let action = if chance.one_in(40) { chance.pick(&["Payment", "", "checks"]) } else { chance.pick(&ACTIONS) };
    let mut fields = request_fields(chance, closed, known, action);
    if chance.one_in(3) {
        let by = chance.below(fields.len());
        fields.rotate_left(by);
    }
    if chance.one_in(30) {
        fields.remove(chance.below(fields.len()));
    }
    let mut text = Vec::new();
    for (name, value) in &fields {
        text.extend_from_slice(if text.is_empty() { b"" } else { b"&" });
        text.extend_from_slice(name.as_bytes());
        text.push(b'=');
        push_coded(chance, value, &mut text);
    }
    match chance.below(40) {
        0 | 1 => text.extend_from_slice(chance.pick(&TAILS).as_bytes()),
        2 | 3 => damage(chance, &mut text),
        4 => {
            text.extend_from_slice(b"&pad=");
            text.resize(2040 + chance.below(16), b'p');
        }
        _ => {}
    }
    text
}

/// The parameters of a payment's request, as long as its number needs no coding.
pub fn payment_request(payment: &Payment) -> String {
    let Payment { receipt, number, kind, kopecks, date } = payment;
    let (amount, date) = (amount(*kopecks), date.escape_ascii());
    format!("action=payment&number={number}&type={kind}&amount={amount}&receipt={receipt}&date={date}")
}

/// The registry of these payments.
pub fn good_registry(payments: impl Iterator<Item = Payment>) -> Vec<u8> {
    let line = |Payment { receipt, number, kind, kopecks, date }: Payment| {
        let rest = format!("\t{kind}\t{}\t{}\t{receipt}\r\n", date.escape_ascii(), amount(kopecks));
        [number.as_bytes(), rest.as_bytes()].concat()
    };
    payments.flat_map(line).collect()
}

/// A registry's text of these payments; some have something wrong.
pub fn registry(chance: &mut Chance, payments: &[Payment]) -> Vec<u8> {
    let wrong = chance.one_in(4);
    let mut text = Vec::new();
    for payment in payments {
        let (amount, receipt) = match wrong && chance.one_in(6) {
            true => (amount_text(chance, payment.kopecks), receipt_text(chance, payment.receipt)),
            false => (amount(payment.kopecks), payment.receipt.to_string()),
        };
        text.extend_from_slice(payment.number.as_bytes());
        text.extend(format!("\t{}\t", payment.kind).bytes());
        text.extend_from_slice(&payment.date);
        text.extend(format!("\t{amount}\t{receipt}\r\n").bytes());
    }
    if wrong && chance.one_in(2) {
        damage(chance, &mut text);
    }
    text
}

/// An element of an answer, in half of the cases.
fn push_element(chance: &mut Chance, name: &str, content: &str, out: &mut Vec<String>) {
    if chance.one_in(2) {
        out.push(format!("<{name}>{content}</{name}>"));
    }
}

/// An answer's text; some have blanks, or something wrong.
pub fn answer(chance: &mut Chance, day: Day) -> Vec<u8> {
    const CODES: [&str; 14] = ["0", "0", "0", "7", "7", "9", "2", "1", "31", "0007", "9999", "10000", "", "x"];
    const AUTHCODES: [&str; 7] = ["1", "17", "0", "999999999999999", "1000000000000000", "", "a"];
    let date = String::from_utf8_lossy(&any_date(chance, day)).into_owned();
    let message = "m".repeat(chance.pick(&[0, 5, 511, 512, 513]));
    let mut parts = vec!["<?xml version=\"1.0\" encoding=\"windows-1251\"?>".into(), "<response>".into()];
    parts.push(format!("<code>{}</code>", chance.pick(&CODES)));
    let authcode = chance.pick(&AUTHCODES);
    push_element(chance, "authcode", authcode, &mut parts);
    if !chance.one_in(4) {
        parts.push(format!("<date>{date}</date>"));
    }
    if chance.one_in(2) {
        push_element(chance, "message", &message, &mut parts);
    }
    parts.push("</response>".into());
    let blank = if chance.one_in(3) { chance.pick(&[" ", "\t", "\r\n", " \n\t\r "]) } else { "" };
    let mut text = parts.join(blank).into_bytes();
    if chance.one_in(8) {
        damage(chance, &mut text);
    }
    text
}
