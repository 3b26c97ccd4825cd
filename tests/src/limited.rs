//! Processes under a limit of processor time.

use std::ffi::OsStr;
use std::os::unix::process::ExitStatusExt;
use std::process::{Command, Stdio};
use std::time::Duration;

use crate::program;

/// What a process may take, in seconds.
pub const MOST_SECONDS: u32 = 5;

/// The signal for a process that has taken it.
const SIGXCPU: i32 = 24;

/// What a process printed, and the processor time that it took.
pub struct Limited {
    pub output: String,
    pub time: Duration,
}

/// Runs a program on an input.
pub fn run<T: AsRef<OsStr>>(program: &OsStr, arguments: &[T], input: &[u8]) -> Result<Limited, String> {
    let script = format!("ulimit -c 0 && ulimit -S -t {MOST_SECONDS} && exec \"$0\" \"$@\"");
    let mut command = Command::new("sh");
    command.arg("-c").arg(script).arg(program).args(arguments).stdin(Stdio::piped());
    let before = children_time();
    let ended = program::run(&mut command, |stdin| stdin.write_all(input))?;
    let time = children_time() - before;
    match ended.status.signal() {
        Some(SIGXCPU) => Err(format!("ran out of {MOST_SECONDS} s of processor time")),
        _ if ended.status.success() => Ok(Limited { output: ended.output, time }),
        _ => Err(format!("ended with {}", ended.status)),
    }
}

/// C's `struct timeval` on 64-bit Linux.
#[repr(C)]
#[derive(Default)]
struct TimeValue {
    seconds: i64,
    microseconds: i64,
}

impl TimeValue {
    fn duration(self) -> Duration {
        Duration::from_secs(self.seconds as u64) + Duration::from_micros(self.microseconds as u64)
    }
}

/// C's `struct rusage` on 64-bit Linux: the times, and fourteen counts.
#[repr(C)]
#[derive(Default)]
struct Usage {
    user: TimeValue,
    system: TimeValue,
    counts: [i64; 14],
}

/// What `getrusage` calls the processes that have been waited for.
const CHILDREN: i32 = -1;

unsafe extern "C" {
    fn getrusage(who: i32, usage: *mut Usage) -> i32;
}

/// The processor time of all processes that have ended here.
fn children_time() -> Duration {
    let mut usage = Usage::default();
    // SAFETY: the pointer is to a live `rusage`.
    let status = unsafe { getrusage(CHILDREN, &mut usage) };
    assert_eq!(status, 0, "the system counts it");
    [usage.user, usage.system].map(TimeValue::duration).iter().sum()
}
