//! The machine that the times are of.

use std::fs;
use std::thread;

/// The processor, its cores and the system, as far as the system tells.
pub fn description() -> String {
    let cores = thread::available_parallelism().map_or(0, usize::from);
    let processor = value("/proc/cpuinfo", "model name", ':');
    let system = value("/etc/os-release", "PRETTY_NAME", '=');
    let kernel = fs::read_to_string("/proc/sys/kernel/osrelease").unwrap_or_default();
    format!("{processor}, {cores} cores; {system}, Linux {}", kernel.trim())
}

/// The value on the first line that begins with a key.
fn value(path: &str, key: &str, separator: char) -> String {
    let text = fs::read_to_string(path).unwrap_or_default();
    let line = text.lines().find(|line| line.starts_with(key));
    let value = line.and_then(|line| line.split_once(separator));
    match value {
        Some((_, value)) => value.trim().trim_matches('"').to_string(),
        None => "unknown".to_string(),
    }
}
