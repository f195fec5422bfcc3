//! The sample cases on both gates.

mod common;

use common::{AnyGate, K1, at, gates, number};
use twin::date::Day;

const K1_ANSWER: &str = "<?xml version=\"1.0\" encoding=\"windows-1251\"?><response><code>0</code>\
     <authcode>1</authcode><date>2005-09-20T15:55:00</date></response>";
const CANCEL: &str = "action=cancel&receipt=987654321&mes=2";
const LINE: &[u8] = b"account12\t1\t2005-09-20T15:53:00\t10.12\t987654321\r\n";
const DAY: Day = Day::new(2005, 9, 20);

/// Runs a case on each gate, on which K1 was already delivered.
fn after_k1(case: impl Fn(&mut dyn AnyGate)) {
    for mut gate in gates(256) {
        assert_eq!(gate.ask(&at("15:55:00"), K1), (0, K1_ANSWER.to_string()));
        assert_eq!(gate.balances(), [1012]);
        case(gate.as_mut());
    }
}

/// A payment with another value of one field.
fn with(name: &str, value: &str) -> String {
    let piece = K1.split('&').find(|piece| piece.starts_with(&format!("{name}="))).expect("a field");
    K1.replace(piece, &format!("{name}={value}"))
}

fn code_and_balance(name: &str, value: &str) -> Vec<(u64, i64)> {
    gates(256).map(|mut gate| (gate.code(&with(name, value)), gate.balances()[0])).to_vec()
}

#[test]
fn k1_k2() {
    after_k1(|gate| {
        assert_eq!(gate.ask(&at("16:00:00"), K1), (0, K1_ANSWER.to_string()));
        assert_eq!(gate.balances(), [1012]);
        assert_eq!(gate.records().len(), 1);
    });
}

#[test]
fn k3_k4() {
    let cases = [
        ("9999999.99", (0, 999_999_999)),
        ("10000000", (3, 0)),
        ("0.01", (0, 1)),
        ("0.00", (3, 0)),
        ("10.", (3, 0)),
        ("10.125", (3, 0)),
        ("7.5", (0, 750)),
    ];
    for (amount, expected) in cases {
        assert_eq!(code_and_balance("amount", amount), [expected; 2], "{amount}");
    }
}

#[test]
fn k5_k6() {
    for (receipt, expected) in [("999999999999999", (0, 1012)), ("1000000000000000", (4, 0)), ("0", (4, 0))] {
        assert_eq!(code_and_balance("receipt", receipt), [expected; 2], "{receipt}");
    }
    for (date, expected) in [("2024-02-29T00:00:00", (0, 1012)), ("2023-02-29T00:00:00", (5, 0))] {
        assert_eq!(code_and_balance("date", date), [expected; 2], "{date}");
    }
}

#[test]
fn k7() {
    after_k1(|gate| {
        assert_eq!(gate.draw(number("account12"), 1, 1), 0);
        assert_eq!(gate.code(CANCEL), 9);
        assert_eq!(gate.balances(), [1011]);
    });
}

#[test]
fn k8_k10() {
    after_k1(|gate| {
        assert_eq!(gate.ask(&at("16:30:00"), CANCEL).0, 0);
        let (code, text) = gate.ask(&at("17:00:00"), K1);
        assert_eq!((code, gate.balances()), (7, vec![0]));
        assert!(text.ends_with("<authcode>1</authcode><date>2005-09-20T16:30:00</date></response>"), "{text}");
        assert_eq!(gate.report(DAY, LINE), (0, "1".to_string()));
        assert_eq!(gate.balances(), [1012]);
        let [paid, credit, cancel] = gate.records()[0].3;
        assert_eq!((paid, credit, cancel), (at("15:53:00"), at("15:55:00"), [0; 19]));
    });
}

#[test]
fn k9_k11_k12() {
    after_k1(|gate| {
        assert_eq!(gate.draw(number("account12"), 1, 1), 0);
        assert_eq!(gate.report(DAY, b""), (0, String::new()));
        assert_eq!(gate.balances(), [-1]);
        assert_eq!(gate.records()[0].3[2], at("23:59:59"));
        assert_eq!(gate.code(&with("receipt", "5")), 5);
        assert_eq!(gate.code(CANCEL), 0);
        assert_eq!(gate.report(Day::new(2005, 9, 22), b""), (55, String::new()));
        assert_eq!(gate.report(DAY, LINE), (0, "0".to_string()));
        assert_eq!(gate.balances(), [-1]);
    });
}
