//! The header's layouts hold in C, and its sample links the archive and runs.
use std::path::{Path, PathBuf};
use std::process::Command;

const SAMPLE: &str = "open 0
accept 0, receipt 987654321
deliver 0, <?xml version=\"1.0\" encoding=\"windows-1251\"?><response><code>0</code><authcode>1</authcode>\
<date>2005-09-20T15:55:00</date></response>
answer 0
settle 0, 1
report 0, settled 1, state 2, balance 1012
draw 0, closed 20, balance 1000
";

fn folder() -> &'static Path {
    Path::new(env!("CARGO_MANIFEST_DIR"))
}

/// The C compiler that `CC` names, or gcc.
fn compiler() -> Command {
    let mut command = Command::new(std::env::var_os("CC").unwrap_or_else(|| "gcc".into()));
    command.args(["-Wall", "-Wextra", "-Werror", "-O1", "-I"]).arg(folder().join("include"));
    command
}

fn run(command: &mut Command) -> String {
    let output = command.output().unwrap_or_else(|error| panic!("{command:?}: {error}"));
    assert!(output.status.success(), "{command:?}\n{}", String::from_utf8_lossy(&output.stderr));
    String::from_utf8(output.stdout).expect("the sample prints ASCII")
}

#[test]
fn the_sample_runs() {
    let program = PathBuf::from(env!("CARGO_TARGET_TMPDIR")).join("sample");
    let sample = folder().join("tests/sample.c");
    run(compiler().arg("-std=c11").arg("-o").arg(&program).arg(sample).arg(env!("ROOSTERYORE_ARCHIVE")));
    assert_eq!(run(&mut Command::new(program)), SAMPLE);
}

#[test]
fn the_header_is_also_cpp() {
    run(compiler().args(["-std=c++17", "-x", "c++", "-fsyntax-only"]).arg(folder().join("include/roosteryore.h")));
}
