//! Each fault of the gate once at least, their order, and that a refused call keeps every byte.

mod common;

use common::{AnyGate, CLOSED, K1, Lent, at, date, gates, number};
use twin::date::Day;
use twin::fields::Number;

const DAY: Day = Day::new(2005, 9, 20);

#[test]
fn answers_to_refused_requests() {
    let cases = [
        ("", 1, ""),
        ("action=drop", 1, ""),
        ("action=check&amount=1", 2, ""),
        ("action=check&number=account12", 3, ""),
        ("action=payment", 4, "<date>2005-09-20T15:55:00</date>"),
        ("action=status&receipt=7", 6, ""),
        ("action=cancel&receipt=7&mes=3", 9, ""),
        ("action=cancel&receipt=7&mes=6", 32, "<message>bad reason</message>"),
        ("action=cancel&receipt=7&receipt=7", 31, "<message>bad request</message>"),
    ];
    for mut gate in gates(4) {
        for (request, code, body) in cases {
            let head = "<?xml version=\"1.0\" encoding=\"windows-1251\"?><response>";
            let text = format!("{head}<code>{code}</code>{body}</response>");
            assert_eq!(gate.ask(&at("15:55:00"), request), (code, text), "{request}");
        }
        assert_eq!(gate.code(&K1.replace("2005-09-20", "2005-09-19")), 5);
        assert_eq!(gate.code(&K1.replace("account12", "account13")), 2);
        assert_eq!(gate.code(&K1.replace("type=1", "type=2")), 2);
        assert_eq!((gate.balances(), gate.records().len()), (vec![0], 0));
    }
}

#[test]
fn a_closed_day_weighs_more_than_the_account_and_the_account_more_than_room() {
    for mut gate in gates(1) {
        assert_eq!(gate.code(K1), 0);
        let other = K1.replace("receipt=987654321", "receipt=5");
        assert_eq!(gate.code(&other), 30);
        assert_eq!(gate.code(&other.replace("account12", "b")), 2);
        assert_eq!(gate.code(&other.replace("account12", "b").replace("2005-09-20", "2005-09-19")), 5);
        assert_eq!(gate.code(&K1.replace("account12", "b").replace("2005-09-20", "2005-09-01")), 4);
        assert_eq!(gate.code(&K1.replace("amount=10.12", "amount=x")), 3);
    }
}

#[test]
fn a_recorded_receipt_with_other_money() {
    let others = [("account12", "account1"), ("10.12", "10.11"), ("15:53:00", "15:53:01"), ("type=1", "type=2")];
    for mut gate in gates(1) {
        assert_eq!(gate.code(K1), 0);
        for (cancelled, again) in [(false, 0), (true, 7)] {
            if cancelled {
                assert_eq!(gate.code("action=cancel&receipt=987654321&mes=1"), 0);
            }
            for (told, other) in others {
                let text = K1.replace(told, other);
                assert_ne!(text, K1);
                let (code, answer) = gate.ask(&at("16:00:00"), &text);
                assert_eq!(code, 4, "{text}");
                assert!(answer.ends_with("<code>4</code><date>2005-09-20T16:00:00</date></response>"), "{answer}");
            }
            assert_eq!(gate.code(&K1.replace("&type=1", "").replace("10.12", "0010.12")), again);
            assert_eq!(gate.code(K1), again);
        }
        assert_eq!(gate.balances(), [0]);
    }
}

#[test]
fn cancels_on_closed_days() {
    for mut gate in gates(4) {
        assert_eq!(gate.code(K1), 0);
        let line = b"account12\t1\t2005-09-20T15:53:00\t10.12\t987654321\r\n";
        assert_eq!(gate.report(DAY, line), (0, "1".into()));
        assert_eq!(gate.code("action=cancel&receipt=987654321&mes=1"), 9);
        assert_eq!(gate.balances(), [1012]);
    }
}

#[test]
fn registries_refused() {
    let line = |receipt: u64| format!("account12\t1\t2005-09-20T15:53:00\t10.12\t{receipt}\r\n");
    let many: String = (1..=513).map(line).collect();
    let unreal = Day::new(2005, 9, 31);
    for mut gate in gates(4) {
        let cases = [
            (DAY, many.clone(), 53),
            (unreal, many.clone(), 53),
            (unreal, line(1), 52),
            (unreal, String::new(), 55),
            (DAY, line(1).replace('\t', " "), 52),
            (Day::new(2005, 9, 21), line(1), 52),
            (DAY, line(2) + &line(1), 54),
            (DAY, line(2) + &line(1) + "\r\n", 52),
            (Day::new(2005, 9, 21), String::new(), 55),
        ];
        for (day, text, code) in cases {
            assert_eq!(gate.report(day, text.as_bytes()), (code, String::new()));
        }
        let mut short = [0; 511];
        assert_eq!(gate.settle(&[0; 19], unreal, many.as_bytes(), &mut short), (50, 0));
        assert_eq!(gate.settle(&[0; 19], unreal, many.as_bytes(), &mut [0; 512]), (51, 0));
        assert_eq!(gate.deliver(&[0; 19], b"x", &mut short), (50, 0));
        assert_eq!(gate.deliver(&[0; 19], b"x", &mut [0; 512]), (51, 0));
        assert_eq!(gate.report(CLOSED, b""), (0, String::new()));
    }
}

#[test]
fn openings_and_draws() {
    let bad = Number { bytes: [b'a'; 30], len: 31 };
    for mut gate in gates(4) {
        assert_eq!((gate.open(bad, 1), gate.open(number("b"), 1000)), (59, 59));
        assert_eq!((gate.open(number("account12"), 1), gate.open(number("account12"), 0)), (56, 0));
        for kind in 1..=254 {
            assert_eq!(gate.open(number("c"), kind), 0);
        }
        assert_eq!((gate.open(number("c"), 255), gate.open(number("c"), 1), gate.open(bad, 1)), (57, 56, 59));
        assert_eq!((gate.draw(bad, 1, 0), gate.draw(number("d"), 1, 0), gate.draw(number("c"), 1, 0)), (59, 59, 58));
        assert_eq!(gate.code(K1), 0);
        assert_eq!((gate.draw(number("account12"), 1, 1013), gate.draw(number("account12"), 1, u64::MAX)), (58, 58));
        assert_eq!((gate.draw(number("account12"), 1, 1012), gate.balances()[0]), (0, 0));
    }
}

#[test]
fn unsound_rows_come_first_and_nothing_is_touched() {
    let spoil: [fn(&mut Lent); 6] = [
        |l| l.head.used = usize::MAX,
        |l| l.head.accounts[0].balance = i64::MIN,
        |l| l.nums[0][1] = u64::MAX,
        |l| l.dates.truncate(3),
        |l| l.head.count = usize::MAX,
        |l| l.nums[0][5] = 2,
    ];
    for spoil in spoil {
        let mut gate = Lent::new(CLOSED, 4);
        gate.open(number("account12"), 1);
        assert_eq!(gate.code(K1), 0);
        spoil(&mut gate);
        let before = gate.bytes();
        let mut out = [b'#'; 100];
        assert_eq!(gate.deliver(&[0; 19], b"x", &mut out), (68, 0));
        assert_eq!(gate.settle(&[0; 19], DAY, b"x", &mut out), (68, 0));
        let bad = Number { bytes: [0; 30], len: 0 };
        assert_eq!((gate.open(bad, u64::MAX), gate.draw(bad, 1, 0)), (68, 68));
        assert!(gate.bytes() == before && out == [b'#'; 100]);
    }
}

#[test]
fn refused_calls_keep_every_byte() {
    let mut gate = Lent::new(CLOSED, 1);
    gate.open(number("account12"), 1);
    assert_eq!(gate.code(K1), 0);
    let before = gate.bytes();
    for request in
        ["", "x", "action=check", "action=payment&receipt=1&number=account12&amount=1&date=2005-09-20T00:00:00"]
    {
        assert_ne!(gate.code(request), 0);
    }
    for text in [&b"x"[..], b"account12\t1\t2005-09-21T15:53:00\t10.12\t1\r\n"] {
        assert_eq!(gate.report(DAY, text).0, 52);
    }
    assert_eq!(gate.open(number("account12"), 1), 56);
    assert_eq!(gate.draw(number("account12"), 1, 2000), 58);
    assert_eq!(gate.bytes(), before);
}

#[test]
fn bytes_past_a_number_are_kept_but_not_compared() {
    let mut gate = Lent::new(CLOSED, 2);
    let odd = Number { bytes: *b"account12\x01\xff-------------------", len: 9 };
    assert_eq!((gate.open(odd, 1), gate.open(number("account12"), 1)), (0, 56));
    assert_eq!(gate.head.accounts[0].number.bytes, odd.bytes);
    assert_eq!((gate.code(K1), gate.numbers[0][9]), (0, 0));
    gate.numbers[0][9] = 77;
    assert_eq!(gate.ask(&at("16:00:00"), "action=cancel&receipt=987654321&mes=1").0, 0);
    assert_eq!((gate.balances(), gate.numbers[0][9]), (vec![0], 77));
}

#[test]
fn two_records_of_one_receipt() {
    let mut gate = Lent::new(CLOSED, 4);
    gate.open(number("account12"), 1);
    gate.code(K1);
    (gate.nums[1], gate.numbers[1], gate.dates[1]) = (gate.nums[0], gate.numbers[0], gate.dates[0]);
    (gate.nums[2], gate.numbers[2], gate.dates[2]) = (gate.nums[0], gate.numbers[0], gate.dates[0]);
    (gate.nums[1][5], gate.nums[2][5], gate.nums[2][3], gate.head.used) = (2, 3, 500, 3);
    (gate.nums[0][4], gate.dates[0][2]) = (2, date("2005-09-20T16:00:00"));
    let line = b"account12\t1\t2005-09-20T15:53:00\t10.12\t987654321\r\n";
    // The first agrees and is restored, the second agrees and is kept, the third does not agree and is swept.
    assert_eq!(gate.report(DAY, line), (0, "1".into()));
    assert_eq!(gate.records().iter().map(|record| record.2).collect::<Vec<_>>(), [true, true, false]);
    assert_eq!(gate.balances(), [1012 + 1012 - 500]);
    let other = b"account12\t1\t2005-09-20T15:53:00\t5\t987654321\r\n";
    assert_eq!(gate.report(DAY, other), (0, "0".into()));
    (gate.nums[0][4], gate.dates[0][2]) = (2, date("2005-09-20T16:00:00"));
    assert_eq!(gate.report(DAY, line), (0, "1".into()));
}
