//! Runs the program `krbtoken` as a user does, at the repository's top, and looks
//! at all that comes out of it.

mod bill;
mod calls;
mod open_pipe;
mod scratch;
mod words;

pub use bill::{check_bill, check_bill_in_pieces};
pub use calls::{calls, Call, USAGES};
pub use open_pipe::OpenPipe;
pub use scratch::Scratch;
pub use words::{message_words, token_words};

use std::ffi::OsStr;
use std::fmt::Debug;
use std::fs::File;
use std::io::{ErrorKind, Write};
use std::process::{ChildStdin, Command, Output, Stdio};
use std::sync::Once;
use std::thread;
use std::time::Duration;

use reference::printed::refused;
use support::must_be_octets;

pub const ROOT: &str = concat!(env!("CARGO_MANIFEST_DIR"), "/../..");
const PROGRAM: &str = concat!(env!("CARGO_MANIFEST_DIR"), "/../../krbtoken");

/// The exit status, if no signal ended it, and all that was written.
pub struct Run {
    pub status: Option<i32>,
    pub stdout: Vec<u8>,
    pub stderr: Vec<u8>,
}

/// The program with these words, built before the first is made, since the tests
/// run side by side.
pub fn program(words: &[impl AsRef<OsStr>]) -> Command {
    static BUILT: Once = Once::new();
    BUILT.call_once(|| {
        let built = Command::new(PROGRAM).arg("help").current_dir(ROOT).output();
        let built = built.expect("the repository's top has no krbtoken to run");
        let stderr = String::from_utf8_lossy(&built.stderr);
        assert!(built.status.success(), "krbtoken is not built: {stderr}");
    });
    let mut command = Command::new(PROGRAM);
    command.args(words).current_dir(ROOT);
    command
}

/// With all of the input at once.
pub fn run(words: &[impl AsRef<OsStr>], input: &[u8]) -> Run {
    run_in_pieces(words, &[input])
}

/// With the input through a pipe, piece by piece and with pauses.
pub fn run_in_pieces(words: &[impl AsRef<OsStr>], pieces: &[&[u8]]) -> Run {
    let mut command = program(words);
    command.stdin(Stdio::piped()).stdout(Stdio::piped());
    let mut child = command.stderr(Stdio::piped()).spawn().unwrap();
    let stdin = child.stdin.take().unwrap();
    thread::scope(|scope| {
        scope.spawn(|| feed(stdin, pieces));
        Run::of(child.wait_with_output().unwrap())
    })
}

/// The program may end before it has read all.
fn feed(mut stdin: ChildStdin, pieces: &[&[u8]]) {
    for (i, piece) in pieces.iter().enumerate() {
        if i > 0 {
            thread::sleep(Duration::from_millis(1));
        }
        match stdin.write_all(piece) {
            Err(error) if error.kind() == ErrorKind::BrokenPipe => return,
            result => result.unwrap(),
        }
    }
}

/// With a file, or a folder, as its input.
pub fn run_on(words: &[impl AsRef<OsStr>], input: File) -> Run {
    Run::of(program(words).stdin(input).output().unwrap())
}

/// With its output written to a file.
pub fn run_to(words: &[impl AsRef<OsStr>], input: File, output: File) -> Run {
    let mut command = program(words);
    command.stdin(input).stdout(output).stderr(Stdio::piped());
    let child = command.spawn().unwrap();
    Run::of(child.wait_with_output().unwrap())
}

/// The texts are shown if they are short; the octets decide.
#[track_caller]
fn must_be_text(found: &[u8], expected: &[u8], what: &impl Debug) {
    if found.len() + expected.len() < 4000 {
        let [found, expected] = [found, expected].map(String::from_utf8_lossy);
        assert_eq!(found, expected, "{what:?}");
    }
    must_be_octets(found, expected, what);
}

impl Run {
    fn of(output: Output) -> Run {
        Run {
            status: output.status.code(),
            stdout: output.stdout,
            stderr: output.stderr,
        }
    }

    #[track_caller]
    pub fn must_be(&self, status: i32, stdout: &[u8], stderr: &str, what: impl Debug) {
        must_be_text(&self.stderr, stderr.as_bytes(), &what);
        must_be_text(&self.stdout, stdout, &what);
        assert_eq!(self.status, Some(status), "{what:?}");
    }

    /// Done, with these lines or octets.
    #[track_caller]
    pub fn must_print(&self, stdout: impl AsRef<[u8]>, what: impl Debug) {
        self.must_be(0, stdout.as_ref(), "", what);
    }

    #[track_caller]
    pub fn must_refuse(&self, number: u32, what: impl Debug) {
        self.must_be(1, refused(number).as_bytes(), "", what);
    }

    /// The line stands after the program's name.
    #[track_caller]
    pub fn must_be_wrong_use(&self, line: &str, what: impl Debug) {
        self.must_be(2, b"", &format!("krbtoken: {line}\n"), what);
    }
}
