//! The program on a pipe that stays open: what it does before its input ends.

use std::ffi::{c_int, c_ulong, OsStr};
use std::fmt::Debug;
use std::io::{ErrorKind, Read, Write};
use std::os::fd::AsRawFd;
use std::process::{Child, ChildStdin, Stdio};
use std::thread::{self, JoinHandle};
use std::time::{Duration, Instant};

use super::{program, Run};

// The C library that the standard library is linked with.
extern "C" {
    fn ioctl(file: c_int, request: c_ulong, ...) -> c_int;
}

/// How many octets of a pipe have not been read.
const FIONREAD: c_ulong = 0x541b;

/// How long the program may take to read or to end: far more than it needs.
const PATIENCE: Duration = Duration::from_secs(10);

/// How long the program must not end after it has read all that there is.
const WAIT: Duration = Duration::from_millis(250);

/// The program, and the end of the pipe that it reads from.
pub struct OpenPipe {
    child: Child,
    stdin: Option<ChildStdin>,
    stdout: Option<JoinHandle<Vec<u8>>>,
    stderr: Option<JoinHandle<Vec<u8>>>,
}

/// Reads all in the background, so that the program never waits for it.
fn collect(mut from: impl Read + Send + 'static) -> Option<JoinHandle<Vec<u8>>> {
    Some(thread::spawn(move || {
        let mut octets = Vec::new();
        from.read_to_end(&mut octets).unwrap();
        octets
    }))
}

/// Asks again and again until there is an answer, but not longer than this.
fn asked<T>(time: Duration, mut ask: impl FnMut() -> Option<T>) -> Option<T> {
    let begun = Instant::now();
    loop {
        let answer = ask();
        if answer.is_some() || begun.elapsed() > time {
            return answer;
        }
        thread::sleep(Duration::from_millis(2));
    }
}

impl OpenPipe {
    pub fn new(words: &[impl AsRef<OsStr>]) -> OpenPipe {
        let mut command = program(words);
        command.stdin(Stdio::piped()).stdout(Stdio::piped());
        let mut child = command.stderr(Stdio::piped()).spawn().unwrap();
        OpenPipe {
            stdin: child.stdin.take(),
            stdout: collect(child.stdout.take().unwrap()),
            stderr: collect(child.stderr.take().unwrap()),
            child,
        }
    }

    /// To a program that has ended nothing is written: whether it had to end is for
    /// the methods below to say.
    #[track_caller]
    pub fn write(&mut self, octets: &[u8]) {
        match self.stdin.as_mut().unwrap().write_all(octets) {
            Err(error) if error.kind() == ErrorKind::BrokenPipe => {}
            result => result.unwrap(),
        }
    }

    /// The status, if the program has ended.
    fn ended(&mut self) -> Option<Option<i32>> {
        let status = self.child.try_wait().unwrap();
        status.map(|status| status.code())
    }

    /// Whether the program has read all that was written.
    fn is_read(&self) -> bool {
        let mut unread: c_int = -1;
        let file = self.stdin.as_ref().unwrap().as_raw_fd();
        // SAFETY: the file is open, and the number that is written has its type.
        let answer = unsafe { ioctl(file, FIONREAD, &mut unread) };
        assert_eq!(answer, 0);
        unread == 0
    }

    /// The program ends although the pipe is open.
    #[track_caller]
    pub fn must_end(mut self, what: impl Debug) -> Run {
        let status = asked(PATIENCE, || self.ended());
        self.run(status, "with its input open", what)
    }

    /// The program reads what was written and does not end, for a while.
    #[track_caller]
    pub fn must_wait(&mut self, what: impl Debug) {
        OpenPipe::must_all_wait(std::slice::from_mut(self), what);
    }

    /// The same for several at once.
    #[track_caller]
    pub fn must_all_wait(pipes: &mut [OpenPipe], what: impl Debug) {
        for (i, pipe) in pipes.iter_mut().enumerate() {
            let done = asked(PATIENCE, || {
                (pipe.is_read() || pipe.ended().is_some()).then_some(())
            });
            assert!(done.is_some(), "does not read: {i}, {what:?}");
        }
        thread::sleep(WAIT);
        for (i, pipe) in pipes.iter_mut().enumerate() {
            let ended = pipe.ended();
            assert_eq!(ended, None, "ended and did not wait: {i}, {what:?}");
        }
    }

    /// Closes the pipe, after which the program ends.
    #[track_caller]
    pub fn close(mut self, what: impl Debug) -> Run {
        drop(self.stdin.take());
        let status = asked(PATIENCE, || self.ended());
        self.run(status, "with its input at its end", what)
    }

    /// A program that has not ended loses its input, and is waited for no longer.
    #[track_caller]
    fn run(&mut self, status: Option<Option<i32>>, how: &str, what: impl Debug) -> Run {
        let Some(status) = status else {
            drop(self.stdin.take());
            panic!("still runs after {PATIENCE:?} {how}: {what:?}");
        };
        let [stdout, stderr] =
            [self.stdout.take(), self.stderr.take()].map(|octets| octets.unwrap().join().unwrap());
        Run {
            status,
            stdout,
            stderr,
        }
    }
}
