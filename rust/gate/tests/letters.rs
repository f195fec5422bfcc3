//! Every byte as a name, at each place that a number comes from: what is sent raw and coded, a registry, an opening, a draw, an
//! acceptance, and a table and a book that are lent.
use roosteryore::*;

const START: Day = Day::new(2005, 9, 19);
const TODAY: Day = Day::new(2005, 9, 20);
const CLOCK: &Date = b"2005-09-20T15:55:00";
const DATE: &Date = b"2005-09-20T15:53:00";

/// 21 to 7E, and the letters of windows-1251.
fn may_name(byte: u8) -> bool {
    matches!(byte, 0x21..=0x7E | 0xA8 | 0xB8 | 0xC0..=0xFF)
}

/// A number of this byte, good or not.
fn number(byte: u8) -> Number {
    let mut bytes = [0; 30];
    bytes[0] = byte;
    Number { bytes, len: 1 }
}

fn code<R>(result: Result<R, Fault>) -> u64 {
    result.map_or_else(Fault::code, |_| 0)
}

/// A gate with one account, named `a`, which has one payment.
fn paid() -> Gate {
    let mut gate = Gate::new(START, Table::with_room(2));
    gate.open_account(number(b'a'), 1).expect("an account");
    let payment = b"action=payment&number=a&amount=10.12&receipt=7&date=2005-09-20T15:53:00";
    assert_eq!(gate.deliver(CLOCK, payment, &mut [0; ANSWER_ROOM]).expect("an answer").code, 0);
    gate
}

fn check(gate: &mut Gate, name: &[u8]) -> u64 {
    let text = [b"action=check&amount=1&number=", name].concat();
    gate.deliver(CLOCK, &text, &mut [0; ANSWER_ROOM]).expect("an answer").code
}

#[test]
fn calls_take_what_may_name() {
    for byte in 0..=u8::MAX {
        let fault = |code| if may_name(byte) { 0 } else { code };
        let mut gate = Gate::new(START, Table::with_room(1));
        assert_eq!(code(gate.open_account(number(byte), 1)), fault(59), "{byte:02X}");
        assert_eq!(code(gate.draw_funds(number(byte), 1, 1)), if may_name(byte) { 58 } else { 59 }, "{byte:02X}");
        // & ends a value and % is half an escape
        if byte != b'&' && byte != b'%' {
            assert_eq!(check(&mut gate, &[byte]), fault(2), "{byte:02X}");
        }
        assert_eq!(check(&mut gate, format!("%{byte:02X}").as_bytes()), fault(2), "{byte:02X}");
        let line = [&[byte][..], b"\t1\t2005-09-20T15:53:00\t10.12\t7\r\n"].concat();
        assert_eq!(code(gate.settle(CLOCK, TODAY, &line, &mut [0; REPORT_ROOM])), fault(52), "{byte:02X}");
        let mut book = Book::new(1, START, Entries::with_room(1));
        assert_eq!(code(book.accept(number(byte), 1, 1, DATE)), fault(60), "{byte:02X}");
    }
}

#[test]
fn tables_and_books_hold_what_may_name() {
    for byte in 0..=u8::MAX {
        let fault = |code| if may_name(byte) { 0 } else { code };
        let mut gate = paid();
        (gate.accounts.names[0][0], gate.table.numbers[0][0]) = (byte, byte);
        let told = gate.deliver(CLOCK, b"action=status&receipt=7", &mut [0; ANSWER_ROOM]).map(|answer| answer.code);
        assert_eq!(told.unwrap_or_else(Fault::code), fault(68), "{byte:02X}");
        let mut book = Book::new(1, START, Entries::with_room(1));
        assert_eq!(book.accept(number(b'a'), 1, 1, DATE), Ok(1));
        book.rows.numbers[0][0] = byte;
        assert_eq!(code(book.write_payment(1, &mut [0; REQUEST_ROOM])), fault(68), "{byte:02X}");
    }
}

/// The agent writes capital escapes, and the gate reads back what was meant; case is not folded.
#[test]
fn a_name_of_thirty_letters_is_paid_and_settled() {
    let choir: Number = "ХорЁлкаёжПервогоГородскогоДом2".parse().expect("a number");
    let small: Number = "хорёлкаёжпервогогородскогодом2".parse().expect("a number");
    assert_eq!((choir.as_bytes().len(), small.as_bytes().len()), (30, 30));
    let mut gate = Gate::new(START, Table::with_room(2));
    let mut book = Book::new(1, START, Entries::with_room(2));
    gate.open_account(choir, 1).expect("an account");
    for (number, codes) in [(choir, 0), (small, 2)] {
        let receipt = book.accept(number, 1, 1012, DATE).expect("a receipt");
        let mut room = [0; REQUEST_ROOM];
        let text = book.write_payment(receipt, &mut room).expect("a request");
        assert!(text.is_ascii() && !text.windows(2).any(|pair| pair[0] == b'%' && pair[1].is_ascii_lowercase()));
        assert_eq!(gate.deliver(CLOCK, text, &mut [0; ANSWER_ROOM]).expect("an answer").code, codes);
    }
    book.freeze(TODAY).expect("the next day");
    let mut room = vec![0; REGISTRY_ROOM];
    let registry = book.write_registry(TODAY, &mut room).expect("a registry");
    assert!(registry.starts_with(choir.as_bytes()));
    let mut marks = [0; REPORT_ROOM];
    let report = gate.settle(CLOCK, TODAY, registry, &mut marks).expect("a report");
    assert_eq!(report, b"10");
    book.take_report(TODAY, report).expect("the day's report");
    assert_eq!((gate.balance(&choir, 1), gate.balance(&small, 1)), (Some(1012), None));
    assert!(book.head.settled);
}
