//! The verdict program as a process.

use std::io::{self, Read, Write};
use std::path::PathBuf;
use std::process::{Child, Command, ExitStatus, Stdio};
use std::sync::mpsc;
use std::thread;
use std::time::{Duration, Instant};

use crate::hex;
use crate::tally::{Checked, alike};

/// A run that takes longer hangs.
const PATIENCE: Duration = Duration::from_secs(30);

pub struct Program {
    pub path: PathBuf,
}

/// What a run printed and how it ended.
pub struct Ended {
    pub output: String,
    pub status: ExitStatus,
}

impl Program {
    /// Runs the program on an input that is there at once, and holds it to a line.
    pub fn check(&self, input: &[u8], line: &str) -> Checked {
        self.check_fed(input, line, |stdin| stdin.write_all(input))
    }

    /// Runs it on an input that comes in pieces, with a pause after each.
    pub fn check_in_pieces(&self, input: &[u8], piece: usize, line: &str) -> Checked {
        self.check_fed(input, line, |stdin| {
            for bytes in input.chunks(piece) {
                stdin.write_all(bytes)?;
                thread::sleep(Duration::from_millis(3));
            }
            Ok(())
        })
    }

    fn check_fed(
        &self,
        input: &[u8],
        line: &str,
        feed: impl FnOnce(&mut dyn Write) -> io::Result<()> + Send,
    ) -> Checked {
        let with_input = |wrong: String| format!("{wrong}\n  input {}", hex::encode(input));
        let ended = run(Command::new(&self.path).stdin(Stdio::piped()), feed).map_err(with_input)?;
        alike("line", &ended.output[..], line).map_err(with_input)?;
        if ended.status.success() { Ok(()) } else { Err(with_input(format!("ended with {}", ended.status))) }
    }

    /// Runs it behind a shell that first does something to its input or output.
    pub fn run_redirected(&self, redirection: &str) -> Result<Ended, String> {
        let script = format!("exec \"$0\" {redirection}");
        run(Command::new("sh").arg("-c").arg(script).arg(&self.path).stdin(Stdio::null()), |_| Ok(()))
    }

    /// Runs it with an output that nobody reads.
    pub fn run_unread(&self) -> Result<ExitStatus, String> {
        let mut child = start(Command::new(&self.path).stdin(Stdio::piped()))?;
        drop(child.stdout.take());
        drop(child.stdin.take());
        end(child)
    }
}

/// Runs a command while something feeds its input.
pub fn run(command: &mut Command, feed: impl FnOnce(&mut dyn Write) -> io::Result<()> + Send) -> Result<Ended, String> {
    let mut child = start(command)?;
    let stdin = child.stdin.take();
    let mut stdout = child.stdout.take().expect("a pipe");
    let (sender, receiver) = mpsc::channel();
    thread::scope(|scope| {
        scope.spawn(move || {
            // the program may end before it has read all
            stdin.map(|mut stdin| feed(&mut stdin))
        });
        scope.spawn(move || {
            let mut output = Vec::new();
            let read = stdout.read_to_end(&mut output);
            sender.send(read.map(|_| output))
        });
        let Ok(output) = receiver.recv_timeout(PATIENCE) else {
            return Err(kill(child));
        };
        let output = String::from_utf8_lossy(&output.map_err(|error| error.to_string())?).into_owned();
        Ok(Ended { output, status: end(child)? })
    })
}

fn start(command: &mut Command) -> Result<Child, String> {
    command.stdout(Stdio::piped()).stderr(Stdio::inherit()).spawn().map_err(|error| format!("{command:?}: {error}"))
}

/// Waits for the end.
fn end(mut child: Child) -> Result<ExitStatus, String> {
    let start = Instant::now();
    while start.elapsed() < PATIENCE {
        if let Some(status) = child.try_wait().map_err(|error| error.to_string())? {
            return Ok(status);
        }
        thread::sleep(Duration::from_micros(100));
    }
    Err(kill(child))
}

fn kill(mut child: Child) -> String {
    let killed = child.kill().and_then(|()| child.wait());
    format!("hangs, killed: {killed:?}")
}
