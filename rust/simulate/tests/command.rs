//! The command itself: what it prints, and how it ends.
use std::process::{Command, Output};

fn simulate(words: &[&str]) -> Output {
    Command::new(env!("CARGO_BIN_EXE_simulate")).args(words).output().expect("the command runs")
}

#[test]
fn a_run_is_told_step_by_step() {
    let output = simulate(&["--seed", "7", "--steps", "50", "--show"]);
    let printed = String::from_utf8(output.stdout).expect("it prints text");
    assert!(output.status.success());
    let lines: Vec<&str> = printed.lines().collect();
    assert!(lines[0].starts_with("    1  ") && lines[49].starts_with("   50  "), "{printed}");
    assert_eq!(lines[50], "seed 7");
    assert_eq!(lines.last(), Some(&"each sentence of demand 3 held after each of 50 steps"));
}

#[test]
fn without_show_only_the_summary_is_told() {
    let output = simulate(&["--steps", "50"]);
    assert!(output.status.success());
    assert!(output.stdout.starts_with(b"seed 1\nsettled day"));
}

#[test]
fn an_option_that_is_none_ends_with_2() {
    let output = simulate(&["--sed", "7"]);
    assert_eq!(output.status.code(), Some(2));
    assert!(String::from_utf8_lossy(&output.stderr).contains("usage: simulate"));
}
