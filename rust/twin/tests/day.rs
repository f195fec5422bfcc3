//! The agent's whole day between its book and either gate.

mod common;

use common::{Agent, AnyGate, at, date, gates, number};
use twin::date::Day;
use twin::request::Action::{self, Cancel, Check, Payment, Status};

const DAY: Day = Day::new(2005, 9, 20);
const NEXT: Day = Day::new(2005, 9, 21);

/// Writes a request, has it answered and hands the answer in; the answer's code.
fn exchange(agent: &mut Agent, gate: &mut dyn AnyGate, action: Action, receipt: u64) -> u64 {
    let (code, request) = agent.write(action, receipt, 1);
    assert_eq!(code, 0);
    let (code, answer) = gate.ask(&at("12:00:00"), std::str::from_utf8(&request).expect("plain"));
    assert_eq!(agent.answer(action, receipt, answer.as_bytes()), 0);
    code
}

#[test]
fn a_whole_day() {
    for mut gate in gates(64) {
        let (mut agent, gate) = (Agent::new(1000, 64), gate.as_mut());
        let (code, check) = agent.check(number("account12"), 1, 1012);
        assert_eq!((code, &check[..]), (0, &b"action=check&number=account12&type=1&amount=10.12"[..]));
        let (code, answer) = gate.ask(&at("10:00:00"), std::str::from_utf8(&check).expect("plain"));
        assert_eq!((code, agent.answer(Check, 0, answer.as_bytes())), (0, 0));
        let names = ["account12", "account12", "account12", "unknown_1", "account12", "account12"];
        for (name, receipt) in names.iter().zip(1000..) {
            assert_eq!(agent.accept(number(name), 1, 100, &at("11:00:00")), (0, receipt));
        }
        assert_eq!(exchange(&mut agent, gate, Payment, 1000), 0);
        assert_eq!(exchange(&mut agent, gate, Payment, 1001), 0);
        assert_eq!(exchange(&mut agent, gate, Cancel, 1001), 0);
        assert_eq!(exchange(&mut agent, gate, Cancel, 1002), 9);
        assert_eq!(exchange(&mut agent, gate, Payment, 1003), 2);
        assert_eq!(exchange(&mut agent, gate, Status, 1004), 6);
        assert_eq!(agent.states(), [2, 4, 3, 1, 1, 1]);
        assert_eq!(agent.nums[0][5], 1);
        // The sixth payment gets through, but its answer is lost; the next day's payment is not this registry's.
        let request = agent.write(Payment, 1005, 0).1;
        gate.ask(&at("13:00:00"), std::str::from_utf8(&request).expect("plain"));
        assert_eq!(agent.accept(number("account12"), 1, 7, &date("2005-09-21T00:00:00")).0, 0);

        assert_eq!(agent.freeze(DAY), 0);
        let (code, registry) = agent.registry(DAY);
        assert_eq!((code, registry.iter().filter(|&&byte| byte == b'\n').count()), (0, 5));
        let (code, report) = gate.report(DAY, &registry);
        assert_eq!((code, &report[..]), (0, "11011"));
        assert_eq!(gate.report(DAY, &registry), (0, report.clone()));
        assert_eq!((agent.freeze(NEXT), agent.report(DAY, report.as_bytes())), (66, 0));
        assert_eq!(agent.states(), [2, 4, 2, 5, 2, 2, 1]);
        assert_eq!(gate.balances(), [400]);
        assert_eq!(agent.registry(DAY), (0, registry));
        assert_eq!(agent.report(DAY, b"00000"), 0);
        assert_eq!(agent.states(), [2, 4, 2, 5, 2, 2, 1]);
        assert_eq!((agent.freeze(NEXT), agent.head.settled), (0, false));
    }
}

#[test]
fn late_answers() {
    for mut gate in gates(64) {
        let (mut agent, gate) = (Agent::new(1, 64), gate.as_mut());
        agent.accept(number("account12"), 1, 100, &at("11:00:00"));
        let paid = gate.ask(&at("12:00:00"), std::str::from_utf8(&agent.write(Payment, 1, 0).1).expect("plain")).1;
        let cancel = agent.write(Cancel, 1, 5).1;
        assert_eq!(agent.states(), [3]);
        assert_eq!((agent.answer(Payment, 1, paid.as_bytes()), agent.states()), (0, vec![3]));
        let cancelled = gate.ask(&at("12:30:00"), std::str::from_utf8(&cancel).expect("plain")).1;
        assert_eq!(agent.freeze(DAY), 0);
        assert_eq!((agent.answer(Cancel, 1, cancelled.as_bytes()), agent.states()), (0, vec![3]));
        let registry = agent.registry(DAY).1;
        let report = gate.report(DAY, &registry).1;
        assert_eq!((agent.report(DAY, report.as_bytes()), agent.states()), (0, vec![2]));
        assert_eq!(gate.balances(), [100]);
    }
}

#[test]
fn full_days_fill_the_registry() {
    for mut gate in gates(4096) {
        let (mut agent, gate) = (Agent::new(999_999_999_999_000, 4096), gate.as_mut());
        let wide = number(&"~".repeat(30));
        assert_eq!(gate.open(wide, 999), 0);
        for _ in 0..512 {
            assert_eq!(agent.accept(wide, 999, 999_999_999, &at("11:00:00")).0, 0);
        }
        assert_eq!(agent.accept(wide, 999, 1, &at("12:00:00")), (61, 0));
        assert_eq!(agent.accept(wide, 999, 1, &date("2005-09-21T12:00:00")).0, 0);
        agent.freeze(DAY);
        let registry = agent.registry(DAY).1;
        assert_eq!(registry.len(), 512 * 83);
        let report = gate.report(DAY, &registry).1;
        assert_eq!(report, "1".repeat(512));
        assert_eq!(agent.report(DAY, report.as_bytes()), 0);
        assert_eq!(gate.balances(), [0, 512 * 999_999_999]);
    }
}
