//! Counting what ran.

use std::panic::{self, AssertUnwindSafe};

/// What a case comes to: nothing, or what was wrong.
pub type Checked = Result<(), String>;

#[derive(Default)]
pub struct Tally {
    passed: usize,
    failed: usize,
}

impl Tally {
    /// Runs one case and counts it; prints it if it failed.
    pub fn case(&mut self, name: &str, check: impl FnOnce() -> Checked) {
        match panic::catch_unwind(AssertUnwindSafe(check)) {
            Ok(Ok(())) => self.passed += 1,
            Ok(Err(wrong)) => self.fail(name, &wrong),
            Err(_) => self.fail(name, "it panicked"),
        }
    }

    fn fail(&mut self, name: &str, wrong: &str) {
        self.failed += 1;
        println!("FAILED {name}: {wrong}");
    }

    /// Runs a group of cases; one without any is a failure.
    pub fn group(&mut self, name: &str, run: impl FnOnce(&mut Tally)) {
        let mut group = Tally::default();
        if panic::catch_unwind(AssertUnwindSafe(|| run(&mut group))).is_err() {
            group.fail(name, "it panicked");
        }
        if group.passed + group.failed == 0 {
            group.fail(name, "nothing ran");
        }
        println!("{name}: {} passed, {} failed", group.passed, group.failed);
        self.passed += group.passed;
        self.failed += group.failed;
    }

    /// Prints the counts as the last line; true if all is well.
    pub fn close(self) -> bool {
        println!("{} passed, {} failed", self.passed, self.failed);
        self.failed == 0 && self.passed > 0
    }
}

/// Fails with both sides unless they are alike.
pub fn alike<T: PartialEq + std::fmt::Display>(what: &str, found: T, expected: T) -> Checked {
    if found == expected { Ok(()) } else { Err(format!("{what}: found {found}, expected {expected}")) }
}
