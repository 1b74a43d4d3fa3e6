//! Runs one program on one input, given to its standard input all at once or some bytes at a time, and takes what it writes to standard output. A
//! program that has read enough may leave the rest unread. Standard error must stay empty.

use super::inputs::Input;
use std::io::{Error, Read, Write};
use std::path::Path;
use std::process::{Child, ChildStdin, Command, ExitStatus, Stdio};
use std::sync::mpsc::{self, Receiver};
use std::thread;
use std::time::{Duration, Instant};

const TIME_LIMIT: Duration = Duration::from_secs(10);
/// More than any program may write.
const MOST_OUTPUT: u64 = 1 << 20;

/// The outer error is that the program could not be started; the inner one that it did not end well, or wrote to standard error.
pub fn run(program: &Path, input: &Input) -> Result<Result<Vec<u8>, String>, Error> {
    let mut child = Command::new(program)
        .stdin(Stdio::piped())
        .stdout(Stdio::piped())
        .stderr(Stdio::piped())
        .spawn()?;
    let end = Instant::now() + TIME_LIMIT;
    give(child.stdin.take().expect("standard input is piped"), input);
    let written = take(child.stdout.take().expect("standard output is piped"));
    let complaint = take(child.stderr.take().expect("standard error is piped"));
    let (written, complaint) = (written.recv_timeout(TIME_LIMIT), complaint.recv_timeout(TIME_LIMIT));
    let status = wait_until(&mut child, end)?;
    Ok(match (written, complaint, status) {
        (_, Ok(Ok(complaint)), _) if !complaint.is_empty() => Err(format!("said to standard error: {}", String::from_utf8_lossy(&complaint))),
        (Ok(written), Ok(_), Some(status)) if status.code().is_some() => written.map_err(|error| error.to_string()),
        (_, _, Some(status)) if status.code().is_none() => Err(format!("ended by a signal: {status}")),
        _ => Err(format!("took more than {} seconds", TIME_LIMIT.as_secs())),
    })
}

/// Reads all that comes, up to a limit, in a thread of its own.
fn take(stream: impl Read + Send + 'static) -> Receiver<Result<Vec<u8>, Error>> {
    let (send, receive) = mpsc::channel();
    thread::spawn(move || {
        let mut bytes = Vec::new();
        let read = stream.take(MOST_OUTPUT).read_to_end(&mut bytes);
        // The receiver is gone where the time is up.
        let _ = send.send(read.map(|_| bytes));
    });
    receive
}

fn give(mut stdin: ChildStdin, input: &Input) {
    let Input { bytes, at_a_time, pause, .. } = input.clone();
    thread::spawn(move || {
        for part in bytes.chunks(at_a_time) {
            // A broken pipe only means that the program reads no more.
            if stdin.write_all(part).and_then(|()| stdin.flush()).is_err() {
                return;
            }
            if !pause.is_zero() {
                thread::sleep(pause);
            }
        }
    });
}

/// Waits for the program's end; when the time is up, ends it.
fn wait_until(child: &mut Child, end: Instant) -> Result<Option<ExitStatus>, Error> {
    loop {
        if let Some(status) = child.try_wait()? {
            return Ok(Some(status));
        }
        if Instant::now() >= end {
            child.kill()?;
            child.wait()?;
            return Ok(None);
        }
        thread::sleep(Duration::from_millis(1));
    }
}
