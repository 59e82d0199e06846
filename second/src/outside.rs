//! Running another program on an input.

use std::ffi::OsString;
use std::io::{ErrorKind, Read, Write};
use std::process::{Command, Stdio};
use std::sync::mpsc;
use std::thread;
use std::time::Duration;

const PATIENCE: Duration = Duration::from_secs(20);

/// What the program printed, or why there is nothing to compare.
///
/// Writing and reading go on side by side, so that neither side waits for the
/// other. A program may stop reading early; what it did not take is no
/// failure.
pub fn run(command: &[OsString], input: &[u8]) -> Result<Vec<u8>, String> {
    let mut child = Command::new(&command[0])
        .args(&command[1..])
        .stdin(Stdio::piped())
        .stdout(Stdio::piped())
        .spawn()
        .map_err(|error| format!("does not start: {error}"))?;
    let mut to = child.stdin.take().expect("its input is a pipe");
    let mut from = child.stdout.take().expect("its output is a pipe");
    let (printed, written) = thread::scope(|scope| {
        let writer = scope.spawn(move || to.write_all(input));
        let (send, receive) = mpsc::channel();
        scope.spawn(move || {
            let mut text = Vec::new();
            let result = from.read_to_end(&mut text).map(|_| text);
            // Nobody listens any more once the time is over.
            let _ = send.send(result);
        });
        let printed = receive.recv_timeout(PATIENCE);
        if printed.is_err() {
            // It may have ended by itself just now.
            let _ = child.kill();
        }
        let written = writer.join().expect("the writer does not panic");
        (printed, written)
    });
    let status = child
        .wait()
        .map_err(|error| format!("cannot be waited for: {error}"))?;
    let Ok(printed) = printed else {
        return Err(format!("printed no end within {PATIENCE:?}"));
    };
    let printed = printed.map_err(|error| format!("its output cannot be read: {error}"))?;
    match written {
        Err(error) if error.kind() != ErrorKind::BrokenPipe => {
            Err(format!("its input cannot be written: {error}"))
        }
        _ if !status.success() => Err(format!(
            "failed with {status} after printing {} bytes",
            printed.len()
        )),
        _ => Ok(printed),
    }
}
