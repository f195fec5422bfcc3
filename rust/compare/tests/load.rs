//! The load program against its twin, and a rehearsal: its lines through the session program.
use chance::Chance;
use compare::{load, process, session, texts};
use std::collections::BTreeSet;

/// What both print; none where the input is malformed, of which the program complains.
fn printed(input: &[u8], what: &str) -> Option<Vec<u8>> {
    let proved = load::output(input).expect("the load program runs");
    let twin = twin::load::run(input);
    process::assert_same(&proved.stdout, twin.as_deref().unwrap_or_default(), what);
    assert_eq!(!proved.stderr.is_empty(), twin.is_none(), "{what}: {}", proved.stderr.escape_ascii());
    twin
}

fn is_refused(input: &[u8], what: &str) -> bool {
    printed(input, what).is_none()
}

#[test]
fn random_loads() {
    for (seed, accounts) in (1..=20).flat_map(|seed| [1, 2, 256].map(|accounts| (seed, accounts))) {
        for steps in [0, 1, 7, 1000] {
            let input = load::input(&mut Chance::new(seed), accounts, steps);
            let what = format!("seed {seed}, {accounts} accounts, {steps} steps");
            let lines = printed(&input, &what).map(|text| text.iter().filter(|&&byte| byte == b'\n').count());
            assert_eq!(lines, Some(steps), "{what}");
        }
    }
}

#[test]
fn damaged_inputs() {
    // Few steps, so that a digit more does not make a long load.
    let refused = (1..=300).filter(|&seed| {
        let chance = &mut Chance::new(seed);
        let accounts = chance.pick(&[1, 2, 5]);
        let mut input = load::input(chance, accounts, 3);
        texts::damage(chance, &mut input);
        is_refused(&input, &format!("seed {seed}: {}", input.escape_ascii()))
    });
    assert!((1..300).contains(&refused.count()), "some are malformed, some are not");
}

/// The input of these fields and lines.
fn told(start: &str, date: &str, reason: &str, steps: &str, accounts: &[u8]) -> Vec<u8> {
    [format!("{start} {date} {reason} {steps}\n").as_bytes(), accounts].concat()
}

const DATE: &str = "2005-09-20T15:53:00";

#[test]
fn malformed_heads() {
    let refused = |input: Vec<u8>| assert!(is_refused(&input, &input.escape_ascii().to_string()));
    assert!(!is_refused(&told("7", DATE, "1", "3", b"a 1"), "well formed"));
    for word in ["", "x", "-1", "+1", "1.", "0x1", " 1", "1 ", "18446744073709551616", "000000000000000000001"] {
        refused(told(word, DATE, "1", "3", b"a 1\n"));
        refused(told("7", DATE, "1", word, b"a 1\n"));
    }
    for date in ["", "2005-02-29T15:53:00", "2005-09-20T24:00:00", "2005-09-20t15:53:00", "2005-09-20T15:53:000"] {
        refused(told("7", date, "1", "3", b"a 1\n"));
    }
    for reason in ["", "0", "6", "01", "1 1", "x"] {
        refused(told("7", DATE, reason, "3", b"a 1\n"));
    }
    for head in ["", "\n", "7 2005-09-20T15:53:00 1\n", "7 2005-09-20T15:53:00 1 3\r\n", "7\t2005-09-20T15:53:00 1 3\n"]
    {
        refused([head.as_bytes(), b"a 1\n"].concat());
    }
}

#[test]
fn malformed_accounts() {
    let long = [&[b'a'; 31][..], b" 1"].concat();
    let many = b"a 1\n".repeat(257);
    let cases: [&[u8]; 24] = [
        b"",
        b"\n",
        b"a",
        b"a\n",
        b"a ",
        b" 1",
        b" a 1",
        b"a  1",
        b"a 1 ",
        b"a 1 1",
        b"a 1\r\n",
        b"a\t1",
        b"a x",
        b"a -1",
        b"a 1000",
        b"a 0001",
        b"a\x7F 1",
        b"\xA7 1",
        b"\xBF 1",
        b"a\0 1",
        b"a 1\n\n",
        b"\na 1\n",
        b"a 1\n\na 1",
        b"a 1\n \n",
    ];
    for accounts in cases.into_iter().chain([&long[..], &many]) {
        let what = accounts.escape_ascii().to_string();
        assert!(is_refused(&told("7", DATE, "1", "3", accounts), &what), "{what}");
    }
    let head = format!("7 {DATE} 1 3");
    assert!(is_refused(head.as_bytes(), "a head without its end"));
    assert!(!is_refused(&told("7", DATE, "1", "3", &many[4..]), "256 accounts"));
}

/// The longest good input has 9,024 bytes; what is longer than the program's buffer is refused, however long.
#[test]
fn long_inputs() {
    let number = [&[0xFF; 30][..], b" 999\n"].concat();
    let longest = told("00000000000000000007", DATE, "1", "00000000000000000300", &number.repeat(256));
    assert_eq!(longest.len(), 9_024);
    assert!(!is_refused(&longest, "the longest"));
    for size in [9_025, 9_215, 9_216, 9_217, 70_000, 1_000_000] {
        let mut input = longest.clone();
        input.resize(size, b'\n');
        assert!(is_refused(&input, &format!("{size} bytes")));
        let line = [told("7", DATE, "1", "3", b"a 1\n"), vec![b'a'; size]].concat();
        assert!(is_refused(&line, &format!("a line of {size} bytes")));
    }
}

#[test]
fn a_rehearsal() {
    let load = load::proved(load::order(16, 10_000).as_bytes()).expect("the load program runs");
    let input = [session::opening(16).as_bytes(), &load].concat();
    let proved = session::proved(&input).expect("the session program runs");
    process::assert_same(&proved, &twin::session::run(&input), "a rehearsal");
    let printed = String::from_utf8(proved).expect("digits, signs and spaces");
    assert_eq!(printed.lines().count(), 10_017);
    let codes: BTreeSet<&str> = printed.lines().filter_map(|line| line.split(' ').next()).collect();
    assert!(!codes.contains("99") && codes.len() > 1, "{codes:?}");
}
