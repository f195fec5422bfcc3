//! The sample cases of document 01 on the compiled calls, and each fault by the call that gives it.
use roosteryore::*;

const START: Day = Day::new(2005, 9, 19);
const TODAY: Day = Day::new(2005, 9, 20);
const TOMORROW: Day = Day::new(2005, 9, 21);
const CLOCK: &Date = b"2005-09-20T15:55:00";
const PAYMENT: &str = "action=payment&number=account12&amount=10.12&receipt=987654321&date=2005-09-20T15:53:00&type=1";
const CANCEL: &str = "action=cancel&receipt=987654321&mes=1";
const LINE: &str = "account12\t1\t2005-09-20T15:53:00\t10.12\t987654321\r\n";
const XML: &str = "<?xml version=\"1.0\" encoding=\"windows-1251\"?>";

fn choir() -> Number {
    "account12".parse().expect("a number")
}

/// The gate of the sample cases, with a table of two records.
fn gate() -> Gate {
    let mut gate = Gate::new(START, Table::with_room(2));
    gate.open_account(choir(), 1).expect("an account");
    gate
}

/// A request's code.
fn request(gate: &mut Gate, parameters: &str) -> u64 {
    gate.deliver(CLOCK, parameters.as_bytes(), &mut [0; ANSWER_ROOM]).expect("an answer").code
}

fn settle(gate: &mut Gate, day: Day, registry: &str) -> Result<String, Fault> {
    let mut out = [0; REPORT_ROOM];
    let report = gate.settle(CLOCK, day, registry.as_bytes(), &mut out)?;
    Ok(report.escape_ascii().to_string())
}

fn balance(gate: &Gate) -> i64 {
    gate.balance(&choir(), 1).expect("the account is open")
}

#[test]
fn k1_k2_a_payment_counts_once() {
    let mut gate = gate();
    let text =
        format!("{XML}<response><code>0</code><authcode>1</authcode><date>2005-09-20T15:55:00</date></response>");
    for clock in [CLOCK, b"2005-09-20T16:00:00"] {
        let mut out = [0; ANSWER_ROOM];
        let answer = gate.deliver(clock, PAYMENT.as_bytes(), &mut out).expect("an answer");
        assert_eq!((answer.code, answer.fault(), answer.text), (0, None, text.as_bytes()));
        assert_eq!(balance(&gate), 1012);
    }
}

#[test]
fn k3_to_k6_fields() {
    for (field, other, code) in [
        ("amount=10.12", "amount=9999999.99", 0),
        ("amount=10.12", "amount=10000000", 3),
        ("amount=10.12", "amount=0.01", 0),
        ("amount=10.12", "amount=0.00", 3),
        ("amount=10.12", "amount=10.", 3),
        ("amount=10.12", "amount=10.125", 3),
        ("receipt=987654321", "receipt=999999999999999", 0),
        ("receipt=987654321", "receipt=9999999999999999", 4),
        ("receipt=987654321", "receipt=0", 4),
        ("date=2005-09-20", "date=2024-02-29", 0),
        ("date=2005-09-20", "date=2023-02-29", 5),
    ] {
        assert_eq!(request(&mut gate(), &PAYMENT.replace(field, other)), code, "{other}");
    }
    let mut gate = gate();
    assert_eq!(request(&mut gate, &PAYMENT.replace("10.12", "7.5")), 0);
    assert_eq!(balance(&gate), 750);
}

#[test]
fn k7_k8_cancels() {
    let mut short = gate();
    assert_eq!(request(&mut short, PAYMENT), 0);
    short.draw_funds(choir(), 1, 1).expect("a draw");
    assert_eq!(request(&mut short, CANCEL), 9);
    let mut gate = gate();
    assert_eq!([PAYMENT, CANCEL, PAYMENT].map(|parameters| request(&mut gate, parameters)), [0, 0, 7]);
    assert_eq!(balance(&gate), 0);
    let record = gate.records().next().expect("a record");
    assert_eq!((record.done, record.credit, record.cancel), (false, *CLOCK, Some(*CLOCK)));
}

#[test]
fn k9_to_k12_settlements() {
    let mut swept = gate();
    assert_eq!(request(&mut swept, PAYMENT), 0);
    swept.draw_funds(choir(), 1, 1).expect("a draw");
    assert_eq!(settle(&mut swept, TODAY, ""), Ok(String::new()));
    assert_eq!(balance(&swept), -1);
    assert_eq!(request(&mut swept, &PAYMENT.replace("987654321", "1")), 5);
    assert_eq!(settle(&mut swept, Day::new(2005, 9, 22), ""), Err(Fault::WrongDay));
    let mut restored = gate();
    assert_eq!([PAYMENT, CANCEL].map(|parameters| request(&mut restored, parameters)), [0, 0]);
    assert_eq!(settle(&mut restored, TODAY, LINE), Ok("1".into()));
    assert_eq!((balance(&restored), restored.head.closed), (1012, TODAY));
}

/// The fault that the gate answers with.
fn answered(gate: &mut Gate, parameters: &str) -> Option<Fault> {
    gate.deliver(CLOCK, parameters.as_bytes(), &mut [0; ANSWER_ROOM]).expect("an answer").fault()
}

#[test]
fn faults_that_the_gate_answers() {
    let mut gate = gate();
    let other = PAYMENT.replace("987654321", "1");
    assert_eq!(answered(&mut gate, ""), Some(Fault::UnknownAction));
    assert_eq!(answered(&mut gate, &PAYMENT.replace("account12", "account13")), Some(Fault::UnknownAccount));
    assert_eq!(answered(&mut gate, "action=status&receipt=7"), Some(Fault::NoRecord));
    assert_eq!(answered(&mut gate, CANCEL), Some(Fault::NotCancelled));
    assert_eq!(answered(&mut gate, &CANCEL.replace("mes=1", "mes=9")), Some(Fault::BadReason));
    assert_eq!(answered(&mut gate, "action"), Some(Fault::BadRequest));
    assert_eq!([PAYMENT, &other].map(|parameters| request(&mut gate, parameters)), [0, 0]);
    assert_eq!(answered(&mut gate, &PAYMENT.replace("987654321", "2")), Some(Fault::TableFull));
    assert_eq!(answered(&mut gate, CANCEL), None);
    assert_eq!(answered(&mut gate, PAYMENT), Some(Fault::Cancelled));
}

#[test]
fn faults_of_the_gate() {
    let mut gate = gate();
    let parameters = PAYMENT.as_bytes();
    assert_eq!(gate.deliver(CLOCK, parameters, &mut [0; 511]), Err(Fault::SmallBuffer));
    assert_eq!(gate.deliver(b"2005-02-29T00:00:00", parameters, &mut [0; 512]), Err(Fault::BadClock));
    assert_eq!(settle(&mut gate, TODAY, "x"), Err(Fault::BadLine));
    assert_eq!(settle(&mut gate, TODAY, &LINE.repeat(513)), Err(Fault::ManyLines));
    assert_eq!(settle(&mut gate, TODAY, &LINE.repeat(2)), Err(Fault::NotRising));
    assert_eq!(gate.open_account(choir(), 1), Err(Fault::AccountKnown));
    assert_eq!(gate.open_account(choir(), 1000), Err(Fault::BadAccount));
    assert_eq!(gate.draw_funds(choir(), 1, 1), Err(Fault::BadDraw));
    for place in 1..256 {
        gate.open_account(choir(), 1 + place).expect("an account");
    }
    assert_eq!(gate.open_account(choir(), 0), Err(Fault::ManyAccounts));
    gate.table.dates.pop();
    assert_eq!(gate.draw_funds(choir(), 1, 1), Err(Fault::Unsound));
}

#[test]
fn faults_of_the_agent() {
    let mut book = Book::new(7, START, Entries::with_room(1));
    let mut out = vec![0; REGISTRY_ROOM];
    assert_eq!(book.accept(choir(), 1, 0, CLOCK), Err(Fault::BadField));
    assert_eq!(book.accept(choir(), 1, 1012, CLOCK), Ok(7));
    assert_eq!(book.accept(choir(), 1, 1012, CLOCK), Err(Fault::NoPlace));
    assert_eq!(book.write_payment(8, &mut out), Err(Fault::UnknownReceipt));
    assert_eq!(book.write_payment(7, &mut out[..511]), Err(Fault::SmallBuffer));
    assert_eq!(book.take_answer(Action::Payment, 7, b"<response>"), Err(Fault::Unreadable));
    assert_eq!(book.freeze(TOMORROW), Err(Fault::NotNext));
    assert_eq!(book.freeze(Day::new(2005, 9, 31)), Err(Fault::WrongDay));
    assert_eq!(book.freeze(TODAY), Ok(()));
    assert_eq!(book.write_status(7, &mut out), Err(Fault::Forbidden));
    assert_eq!(book.take_report(TODAY, b"2"), Err(Fault::BadReport));
    assert_eq!(book.take_report(TODAY, b"0"), Ok(()));
    assert_eq!(book.entry(7).map(|entry| entry.state), Some(State::Unposted));
    book.rows.nums[0][4] = 6;
    assert_eq!(book.freeze(TOMORROW), Err(Fault::Unsound));
}

#[test]
fn answers_of_each_action_turn_their_entry() {
    let answer = |code| {
        let date = "<date>2005-09-20T15:55:00</date>";
        format!("{XML}<response><code>{code}</code><authcode>5</authcode>{date}</response>")
    };
    for (action, code, state, authcode) in [
        (Action::Payment, 0, State::Credited, 5),
        (Action::Payment, 7, State::Cancelled, 0),
        (Action::Status, 0, State::Credited, 5),
        (Action::Status, 6, State::Asked, 0),
        (Action::Cancel, 0, State::Cancelled, 0),
        (Action::Cancel, 9, State::Asked, 0),
    ] {
        let mut book = Book::new(7, START, Entries::with_room(1));
        book.accept(choir(), 1, 1012, CLOCK).expect("a receipt");
        book.take_answer(action, 7, answer(code).as_bytes()).expect("a readable answer");
        let entry = book.entry(7).expect("the entry");
        assert_eq!((entry.state, entry.authcode), (state, authcode), "{action:?} {code}");
    }
    let mut book = Book::new(7, START, Entries::with_room(1));
    let checked = format!("{XML}<response><code>0</code></response>");
    assert_eq!(book.take_answer(Action::Check, 0, checked.as_bytes()), Ok(()));
}
