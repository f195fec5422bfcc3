//! The proved programs, run as processes.
use std::io::{Error, Write};
use std::path::PathBuf;
use std::process::{Command, Output, Stdio};
use std::thread;

/// A proved program, under the name of its crate.
pub(crate) struct Program {
    pub(crate) name: &'static str,
    /// The environment's variable that names another.
    pub(crate) variable: &'static str,
}

impl Program {
    /// Where it is: as the variable says, or in the repository.
    pub(crate) fn path(&self) -> PathBuf {
        let own = || PathBuf::from(concat!(env!("CARGO_MANIFEST_DIR"), "/../../target/bin")).join(self.name);
        std::env::var_os(self.variable).map_or_else(own, PathBuf::from)
    }

    /// What it prints on this input; what it prints on standard error goes where it is told.
    pub(crate) fn run(&self, input: &[u8], errors: Stdio) -> Result<Output, Error> {
        let path = self.path();
        let told = |error: Error| {
            Error::new(error.kind(), format!("{}: {error}; run `tools/build {}`", path.display(), self.name))
        };
        let mut command = Command::new(&path);
        let mut child = command.stdin(Stdio::piped()).stdout(Stdio::piped()).stderr(errors).spawn().map_err(told)?;
        let mut pipe = child.stdin.take().expect("its input is a pipe");
        thread::scope(|scope| {
            // Written beside the reading, since neither pipe holds everything.
            scope.spawn(move || pipe.write_all(input));
            child.wait_with_output()
        })
    }
}

/// Tells the first line in which the outputs of both sides differ.
///
/// # Panics
/// Where there is one.
pub fn assert_same(proved: &[u8], twin: &[u8], what: &str) {
    let lines = |text: &[u8]| text.split(|&byte| byte == b'\n').map(<[u8]>::to_vec).collect::<Vec<_>>();
    let (ours, theirs) = (lines(proved), lines(twin));
    let first = (0..ours.len().max(theirs.len())).find(|&at| ours.get(at) != theirs.get(at));
    if let Some(at) = first {
        let told = |text: Option<&Vec<u8>>| text.map(|text| text.escape_ascii().to_string());
        panic!(
            "{what}, line {} of the output\nproved {:?}\ntwin   {:?}",
            at + 1,
            told(ours.get(at)),
            told(theirs.get(at))
        );
    }
}
