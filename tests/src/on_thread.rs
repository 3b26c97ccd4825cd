//! Calls of the library through its header, each in a process of its own, on a thread with a stack of a given size.

use std::path::Path;
use std::time::Duration;

use crate::c_program::CProgram;
use crate::call::describe;
use crate::dense::Call;
use crate::limited;

/// The kinds of calls for which the header asks for different stacks.
#[derive(Clone, Copy)]
pub enum Kind {
    /// Refused before its run.
    Refused,
    /// No column has more slots than [`MOST_SMALL`].
    Small,
    /// Any call.
    Large,
}

pub const MOST_SMALL: usize = 4096;

impl Kind {
    /// What `c/on_thread.c` calls it.
    pub fn name(self) -> &'static str {
        match self {
            Kind::Refused => "refused",
            Kind::Small => "small",
            Kind::Large => "large",
        }
    }
}

/// `c/on_thread.c`, compiled.
pub struct OnThread {
    program: CProgram,
}

/// The bytes of stack that a call used, and those that there were.
#[derive(Clone, Copy, Default)]
pub struct StackUse {
    pub used: usize,
    pub size: usize,
}

/// What a call came to.
pub struct Answer {
    /// The report as the verdict program prints it.
    pub line: String,
    pub stack: StackUse,
    /// The processor time of its process.
    pub time: Duration,
}

impl OnThread {
    pub fn compile(home: &Path, library: &Path) -> Result<OnThread, String> {
        Ok(OnThread { program: CProgram::compile(home, library, "on_thread")? })
    }

    /// Makes a call on as much stack as its run may need.
    pub fn judge(&self, call: &Call) -> Result<Answer, String> {
        let is_small = call.first.iter().all(|&slots| slots <= MOST_SMALL);
        self.judge_as(call, if is_small { Kind::Small } else { Kind::Large })
    }

    /// Makes a call whose stores have columns of one length for nodes and of one for values.
    pub fn judge_as(&self, call: &Call, kind: Kind) -> Result<Answer, String> {
        let (nodes, values) = (call.first[0], call.first[3]);
        let numbers = [call.w as usize, nodes, values, call.list1.len(), call.list2.len()];
        let mut arguments = vec![kind.name().to_string()];
        arguments.extend(numbers.map(|number| number.to_string()));
        let input = [&call.list1[..], &call.list2, &call.schedule].concat();
        let ended = limited::run(self.program.path().as_os_str(), &arguments, &input);
        ended.and_then(answer).map_err(|wrong| format!("{wrong}\n  {}", describe(call)))
    }
}

fn answer(ended: limited::Limited) -> Result<Answer, String> {
    let (line, stack) = ended.output.trim_end().split_once('\n').ok_or("no line for the stack")?;
    let numbers: Result<Vec<usize>, _> = stack.split(' ').map(str::parse).collect();
    let Ok(&[used, size]) = numbers.as_deref() else {
        return Err(format!("'{stack}' is not what the stack had"));
    };
    Ok(Answer { line: line.to_string(), stack: StackUse { used, size }, time: ended.time })
}
