//! The comparison without times: the library, the hash maps and the verdict program on every pair.

use crate::agreement::{self, Agreement};
use crate::families::{self, Case};
use crate::gate_steps;
use crate::inputs;
use crate::inverses;
use crate::late_refusals::{self, LateRefusal};
use crate::lent::{LARGEST, Lent};
use crate::pair::Pair;
use crate::program;
use crate::samples::{self, Sample};
use gannetrope::{Limits, Report};
use std::fs;
use std::io;
use std::path::PathBuf;

/// How many pairs of a sample are checked, each with its second list equal and changed.
const PAIRS_OF_A_SAMPLE: usize = 3;

/// Checks the families, the samples, the late refusals, the steps by gate, the inverses, and the files of `INPUTS` if
/// it is set. The last line that it prints is 'N passed, M failed'; it gives whether all is well.
pub fn all() -> io::Result<bool> {
    let mut checker = Checker { program: program::path(), passed: 0, failed: 0 };
    if checker.program.is_none() {
        checker.count("verdict program", Err("it is missing".to_string()));
    }
    for case in families::all() {
        checker.check_case(&case);
    }
    for sample in samples::all() {
        checker.check_sample(&sample);
    }
    for late in late_refusals::all() {
        checker.check_late_refusal(&late);
    }
    for trial in gate_steps::all() {
        checker.check_pair(&trial.name(), &trial.once(), |_| Ok(()));
    }
    for undoing in inverses::all() {
        checker.count(&undoing.name(), undoing.check());
    }
    for path in inputs::folder().map_or(Ok(vec![]), |folder| inputs::files(&folder))? {
        if let Some(pair) = Pair::from_input(&fs::read(&path)?) {
            checker.check_pair(&inputs::name(&path), &pair, |_| Ok(()));
        }
    }
    println!("{} passed, {} failed", checker.passed, checker.failed);
    Ok(checker.failed == 0)
}

struct Checker {
    program: Option<PathBuf>,
    passed: usize,
    failed: usize,
}

impl Checker {
    fn check_case(&mut self, case: &Case) {
        let pair = Pair::new(&case.first, &case.second);
        self.check_pair(&case.name(), &pair, |report| case.check_made(report));
    }

    /// The first pairs of a sample at the settings at which they are counted.
    fn check_sample(&mut self, sample: &Sample) {
        for (number, case) in sample.pairs().take(PAIRS_OF_A_SAMPLE).flatten().enumerate() {
            let name = format!("{}, number {number}", case.name());
            let pair = Pair::new(&case.first, &case.second);
            self.check_as_program(&name, &pair, |report| case.check_unless_refused(report));
        }
    }

    fn check_late_refusal(&mut self, late: &LateRefusal) {
        let name = late.name();
        let at_its_limits = check_at(&late.refused(), late.limits)
            .and_then(|report| late.check_made(&report))
            .and_then(|()| check_at(&late.answered(), late.limits).map(drop));
        self.count(&name, at_its_limits);
        self.check_pair(&name, &late.refused(), |_| Ok(()));
    }

    /// A pair with the largest stores and with the verdict program's, and the program's line.
    fn check_pair(&mut self, name: &str, pair: &Pair, check_made: impl FnOnce(&Report) -> Agreement) {
        self.count(name, check_at(pair, LARGEST).and_then(|report| check_made(&report)));
        self.check_as_program(name, pair, |_| Ok(()));
    }

    /// A pair with the verdict program's stores, and the program's line.
    fn check_as_program(&mut self, name: &str, pair: &Pair, check_made: impl FnOnce(&Report) -> Agreement) {
        let small = check_at(pair, Limits::default());
        if let (Ok(report), Some(program)) = (&small, &self.program) {
            let line = program::check(program, pair, report);
            self.count(name, line);
        }
        self.count(name, small.and_then(|report| check_made(&report)));
    }

    fn count(&mut self, name: &str, outcome: Agreement) {
        match outcome {
            Ok(()) => self.passed += 1,
            Err(wrong) => {
                self.failed += 1;
                println!("FAILED {name}: {wrong}");
            }
        }
    }
}

/// Compares the library with the hash maps; gives their report.
fn check_at(pair: &Pair, limits: Limits) -> Result<Report, String> {
    let judged = pair.judge_by_hash_maps(limits);
    agreement::check(pair, &mut Lent::new(limits), &judged)?;
    Ok(judged.report)
}
