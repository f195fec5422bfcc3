//! Each fault of the agent once at least, and their order.

mod common;

use common::{Agent, at, date, number};
use twin::date::Day;
use twin::fields::Number;
use twin::request::Action::{Cancel, Check, Payment, Status};

const DAY: Day = Day::new(2005, 9, 20);
const ANSWER: &[u8] =
    b"<?xml version=\"1.0\" encoding=\"windows-1251\"?><response><code>0</code><authcode>4</authcode>\
     <date>2005-09-20T15:55:00</date></response>";

/// A book of three places whose first is used.
fn agent() -> Agent {
    let mut agent = Agent::new(50, 3);
    assert_eq!(agent.accept(number("a_1"), 1, 750, &at("10:00:00")), (0, 50));
    agent
}

#[test]
fn acceptance() {
    let mut agent = agent();
    let bad = Number { bytes: [b' '; 30], len: usize::MAX };
    let (good, when) = (number("a"), at("10:00:00"));
    for (number, kind, kopecks, date) in [
        (bad, 1, 1, when),
        (good, 1000, 1, when),
        (good, 1, 0, when),
        (good, 1, 1_000_000_000, when),
        (good, 1, 1, [0; 19]),
        (good, 1, 1, date("2005-09-19T23:59:59")),
    ] {
        assert_eq!(agent.accept(number, kind, kopecks, &date), (60, 0));
    }
    let odd = Number { bytes: [b'z'; 30], len: 2 };
    assert_eq!((agent.accept(odd, 0, 1, &when), agent.accept(good, 1, 1, &when)), ((0, 51), (0, 52)));
    assert_eq!((agent.numbers[1], agent.nums[1]), ([b'z'; 30], [51, 2, 0, 1, 1, 0]));
    assert_eq!((agent.accept(good, 1, 1, &when), agent.accept(bad, 1, 1, &when)), ((61, 0), (60, 0)));
    let mut last = Agent::new(999_999_999_999_999, 3);
    assert_eq!(last.accept(good, 1, 1, &when), (0, 999_999_999_999_999));
    assert_eq!(last.accept(good, 1, 1, &when), (61, 0));
}

#[test]
fn writings() {
    let mut agent = agent();
    let before = agent.bytes();
    for receipt in [0, 1_000_000_000_000_000, u64::MAX] {
        assert_eq!(agent.write(Status, receipt, 1), (60, vec![]));
    }
    for (reason, code) in [(0, 60), (6, 60), (u64::MAX, 60)] {
        assert_eq!(agent.write(Cancel, 51, reason), (code, vec![]));
    }
    assert_eq!(
        (agent.write(Status, 49, 0).0, agent.write(Payment, 51, 0).0, agent.write(Cancel, 51, 1).0),
        (62, 62, 62)
    );
    assert_eq!(agent.check(number("a"), 1000, 1), (60, vec![]));
    assert_eq!(agent.write(Check, 50, 1), (60, vec![]));
    assert_eq!(agent.bytes(), before);
    let payment = b"action=payment&number=a%5F1&type=1&amount=7.50&receipt=50&date=2005-09-20T10:00:00";
    assert_eq!(agent.write(Payment, 50, 99), (0, payment.to_vec()));
    assert_eq!(agent.write(Status, 50, 99), (0, b"action=status&receipt=50".to_vec()));
    assert_eq!(agent.bytes(), before);
    for _ in 0..2 {
        assert_eq!(agent.write(Cancel, 50, 5), (0, b"action=cancel&receipt=50&mes=5".to_vec()));
        assert_eq!(agent.states(), [3]);
    }
    assert_eq!((agent.write(Payment, 50, 0).0, agent.write(Status, 50, 0).0), (63, 0));
    for (state, codes) in [(1, (0, 0)), (2, (63, 0)), (4, (63, 63)), (5, (63, 63))] {
        agent.nums[0][4] = state;
        assert_eq!((agent.write(Payment, 50, 0).0, agent.write(Cancel, 50, 1).0), codes, "{state}");
    }
    agent.nums[0][4] = 1;
    assert_eq!(agent.freeze(DAY), 0);
    for action in [Payment, Status, Cancel] {
        assert_eq!(agent.write(action, 50, 1), (63, vec![]));
    }
    assert_eq!(agent.check(number("a"), 1, 1).0, 0);
}

#[test]
fn answers() {
    let mut agent = agent();
    assert_eq!(
        (agent.answer(Payment, 0, b""), agent.answer(Payment, 51, b""), agent.answer(Payment, 50, b"")),
        (60, 62, 64)
    );
    assert_eq!((agent.answer(Check, 0, b""), agent.answer(Check, u64::MAX, ANSWER)), (64, 64));
    let bare = b"<?xml version=\"1.0\" encoding=\"windows-1251\"?>\n<response><code>2</code></response>";
    assert_eq!(agent.answer(Check, u64::MAX, bare), 0);
    assert_eq!((agent.answer(Payment, 50, bare), agent.answer(Cancel, 50, bare)), (64, 0));
    assert_eq!(agent.states(), [1]);
    assert_eq!((agent.answer(Payment, 50, ANSWER), &agent.nums[0][4..]), (0, &[2, 4][..]));
    assert_eq!(agent.freeze(DAY), 0);
    assert_eq!((agent.answer(Cancel, 50, b"x"), agent.answer(Cancel, 50, ANSWER), agent.states()), (64, 0, vec![2]));
}

#[test]
fn freezing_registries_and_reports() {
    let mut agent = agent();
    let unreal = Day::new(2005, 13, 1);
    assert_eq!((agent.freeze(unreal), agent.registry(unreal).0, agent.report(unreal, b"x")), (55, 55, 55));
    assert_eq!((agent.registry(DAY).0, agent.report(DAY, b"x")), (55, 55));
    for day in [Day::new(2005, 9, 19), Day::new(2005, 9, 21)] {
        assert_eq!(agent.freeze(day), 66);
    }
    assert_eq!((agent.freeze(DAY), agent.freeze(Day::new(2005, 9, 21)), agent.freeze(unreal)), (0, 66, 55));
    assert_eq!(agent.registry(DAY), (0, b"a_1\t1\t2005-09-20T10:00:00\t7.50\t50\r\n".to_vec()));
    assert_eq!(agent.registry(Day::new(2000, 1, 1)), (0, vec![]));
    for report in [&b""[..], b"2", b"11", b"1\n"] {
        assert_eq!(agent.report(DAY, report), 65);
    }
    assert_eq!((agent.report(Day::new(2005, 9, 19), b"1"), agent.report(Day::new(2005, 9, 19), b"")), (65, 0));
    assert!(!agent.head.settled);
    assert_eq!((agent.report(DAY, b"0"), agent.states(), agent.head.settled), (0, vec![5], true));
    assert_eq!((agent.report(DAY, b"1"), agent.report(DAY, b""), agent.states()), (0, 65, vec![5]));
    agent.head.frozen = Day::new(2099, 12, 31);
    assert_eq!((agent.freeze(Day::new(2100, 1, 1)), agent.freeze(Day::new(2099, 12, 31))), (55, 66));
}

#[test]
fn unsound_and_short() {
    let mut agent = agent();
    let short = |agent: &mut Agent, out: &mut [u8]| {
        let (head, rows) = agent.parts();
        let check = head.write_check(rows, Number { bytes: [0; 30], len: 0 }, 1, 1, out).0;
        let (head, rows) = agent.parts();
        let status = head.write(rows, Status, 0, 0, out).0;
        let (head, rows) = agent.parts();
        (check, status, head.write_registry(rows, Day::new(0, 0, 0), out).0)
    };
    assert_eq!(short(&mut agent, &mut [0; 511]), (50, 50, 50));
    assert_eq!(short(&mut agent, &mut [0; 512]), (60, 60, 50));
    assert_eq!(short(&mut agent, &mut [0; 65_535]), (60, 60, 50));
    agent.head.first = u64::MAX;
    let before = agent.bytes();
    assert_eq!(short(&mut agent, &mut []), (68, 68, 68));
    assert_eq!(agent.accept(number("a"), 1000, 0, &[0; 19]), (68, 0));
    assert_eq!((agent.answer(Check, 0, b""), agent.answer(Payment, 0, b"")), (68, 68));
    assert_eq!((agent.freeze(Day::new(0, 0, 0)), agent.report(Day::new(0, 0, 0), b"x")), (68, 68));
    assert_eq!(agent.bytes(), before);
}
