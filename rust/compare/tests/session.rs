//! The session program against its twin, on random lines and on the sample day.
use chance::Chance;
use compare::{process, session};

/// Both print the same; what differs first is told.
fn same(input: &[u8], what: &str) {
    let proved = session::proved(input).expect("the session program runs");
    process::assert_same(&proved, &twin::session::run(input), what);
}

#[test]
fn random_sessions() {
    for seed in 1..=60 {
        same(&session::lines(&mut Chance::new(seed), 300), &format!("seed {seed}"));
    }
}

#[test]
fn the_sample_day() {
    same(include_bytes!("../../../examples/day.txt"), "examples/day.txt");
}

/// A full table, asked for again and again: far more is printed than the program's buffer holds.
#[test]
fn a_full_day_is_printed_in_parts() {
    let mut text = b"C 2005-09-19\nO a 1\n".to_vec();
    for receipt in 999_999_999_999_744..=999_999_999_999_999_u64 {
        let payment = format!("action=payment&number=a&amount=9999999.99&receipt={receipt}&date=2005-09-20T09:00:00");
        text.extend(format!("R 2005-09-20T10:00:00 {payment}\n").bytes());
    }
    for asked in [1, 2, 3, 500] {
        let mut asking = text.clone();
        asking.extend(b"P 2005-09-20\n".repeat(asked));
        same(&asking, &format!("{asked} times"));
        // A last line without its end prints as much as any.
        asking.pop();
        same(&asking, &format!("{asked} times, unended"));
    }
}

#[test]
fn odd_ends() {
    let cases: [&[u8]; 7] = [
        b"",
        b"\n",
        b"\n\n",
        b"C 2005-09-19",
        b"C 2005-09-19\nR 2005-09-20T15:55:00 ",
        b"C 2005-09-19\n\0\n \n",
        b"C 2005-09-19\r\n",
    ];
    for case in cases {
        same(case, &case.escape_ascii().to_string());
    }
}

#[test]
fn long_lines_are_not_cut() {
    for count in [2047, 2048, 2049, 70_000, 1_000_000] {
        let mut text = b"C 2005-09-19\nR 2005-09-20T15:55:00 action=check&x=".to_vec();
        text.resize(text.len() + count, b'y');
        same(&text, &format!("{count} bytes"));
        let opening = [b"C 2005-09-19\nO ".as_slice(), &vec![b'a'; count], b" 1\n"].concat();
        same(&opening, &format!("a number of {count} bytes"));
    }
}
