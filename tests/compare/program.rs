//! `pick` as a process, started through the script at the top, or as the program itself where a signal has to reach it: its
//! standard input sent in parts, with pauses or interrupted by a signal; standard input or output that fails.

use std::fs::File;
use std::io::Write;
use std::os::fd::{AsRawFd, OwnedFd};
use std::os::unix::net::UnixStream;
use std::os::unix::process::ExitStatusExt;
use std::process::{Command, Output, Stdio};
use std::thread::{sleep, spawn};
use std::time::{Duration, Instant};

// The C library's, on Linux.
unsafe extern "C" {
    fn ioctl(descriptor: i32, request: u64, answer: *mut i32) -> i32;
    fn kill(process: i32, signal: i32) -> i32;
}

/// How many bytes wait to be read.
const FIONREAD: u64 = 0x541b;
const SIGPIPE: i32 = 13;
const SIGCONT: i32 = 18;
const SIGSTOP: i32 = 19;

const SHORT: Duration = Duration::from_millis(2);
/// Nothing that is waited for takes as long in a program that reads on.
const LONG: Duration = Duration::from_secs(2);

fn piped(name: &str) -> Command {
    let mut pick = Command::new(name);
    pick.stdin(Stdio::piped()).stdout(Stdio::piped()).stderr(Stdio::piped());
    pick
}

fn pick() -> Command {
    piped("./pick")
}

fn wait_until(holds: impl Fn() -> bool) {
    let begin = Instant::now();
    while !holds() && begin.elapsed() < LONG {
        sleep(Duration::from_micros(50));
    }
}

/// Waits until the bytes sent so far were read, so that those sent next come with another read.
fn wait_until_read(end: &impl AsRawFd) {
    wait_until(|| {
        let mut waiting = 0;
        // SAFETY: the descriptor is open while it is lent, and FIONREAD writes one number.
        let answer = unsafe { ioctl(end.as_raw_fd(), FIONREAD, &mut waiting) };
        answer != 0 || waiting == 0
    });
}

/// What the program prints for an input that comes in these parts, each with a read of its own, and a pause after each.
pub fn run_in_parts(parts: &[&[u8]], pause: Duration) -> Output {
    let mut run = pick().spawn().expect("./pick runs");
    let mut stdin = run.stdin.take().expect("it was piped");
    let parts: Vec<Vec<u8>> = parts.iter().map(|part| part.to_vec()).collect();
    // The program may end before it has read an input that is too long: what is left of it is not sent.
    let sender = spawn(move || {
        for (i, part) in parts.iter().enumerate() {
            if i > 0 {
                wait_until_read(&stdin);
                sleep(pause);
            }
            if stdin.write_all(part).is_err() {
                return;
            }
        }
    });
    let output = run.wait_with_output().expect("./pick ends");
    sender.join().expect("the sender ends");
    output
}

/// Stops the program and lets it go on.
fn stop_and_continue(process: u32) {
    let stopped = || std::fs::read_to_string(format!("/proc/{process}/stat")).is_ok_and(|stat| stat.contains(") T "));
    // SAFETY: the process is a child that was not waited for, so the number is its own.
    unsafe { kill(process as i32, SIGSTOP) };
    wait_until(stopped);
    // SAFETY: as above.
    unsafe { kill(process as i32, SIGCONT) };
}

/// What the program prints where each of its reads but the first is interrupted: the program itself, since it is the process
/// that is stopped. A read of a socket that has a time limit fails with EINTR when the process was stopped and goes on,
/// without any handler.
pub fn run_interrupted(parts: &[&[u8]]) -> Output {
    let (mut ours, theirs) = UnixStream::pair().expect("a pair of sockets");
    theirs.set_read_timeout(Some(60 * LONG)).expect("a time limit");
    let seen = theirs.try_clone().expect("the same socket");
    let run = piped("target/bin/pick").stdin(Stdio::from(OwnedFd::from(theirs))).spawn().expect("the program runs");
    for part in parts {
        ours.write_all(part).expect("the program reads on");
        wait_until_read(&seen);
        sleep(SHORT);
        stop_and_continue(run.id());
    }
    drop(ours);
    run.wait_with_output().expect("the program ends")
}

fn ends_with(mut pick: Command, what: &str, stdout: &str, stderr: &str) {
    let run = pick.output().expect("./pick runs");
    let printed = (String::from_utf8_lossy(&run.stdout), String::from_utf8_lossy(&run.stderr));
    assert_eq!(printed, (stdout.into(), stderr.into()), "{what}: what is printed differs");
    assert_eq!(run.status.code(), Some(2), "{what}: {}", run.status);
}

/// A failed read or write is told on standard error, and nothing is printed; a pipe that nobody reads ends the program, and
/// the script as the program.
/// Answers how many of these were tried.
pub fn compare_failures() -> usize {
    let sample = || Stdio::from(File::open("samples/february.txt").expect("the sample"));
    let mut directory = pick();
    directory.stdin(File::open(".").expect("a directory"));
    ends_with(directory, "a directory as input", "", "pick: standard input: Is a directory\n");
    let mut full = pick();
    full.stdin(sample()).stdout(File::create("/dev/full").expect("the full device"));
    ends_with(full, "a full device as output", "", "pick: standard output: No space left on device\n");
    let mut closed = Command::new("sh");
    closed.args(["-c", "./pick samples/february.txt >&-"]);
    ends_with(closed, "a closed output", "", "pick: standard output: Bad file descriptor\n");
    let mut run = pick().spawn().expect("./pick runs");
    drop(run.stdout.take());
    run.stdin.take().expect("it was piped").write_all(b"a\na\n").expect("the program reads");
    let status = run.wait().expect("./pick ends");
    assert_eq!(status.signal(), Some(SIGPIPE), "an output that nobody reads: {status}");
    4
}
