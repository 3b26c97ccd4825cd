//! What the scripts have in common that run a proved program: a program that fails, and the build.

use std::path::Path;

use crate::circuits::{list, on_one_qubit};
use crate::shell::{Folder, SIGNALLED, bash};
use crate::tally::{Checked, Tally, alike};

/// The statuses of their own that all of them have.
pub const LOST: i32 = 1;
pub const UNUSABLE: i32 = 2;

const SIGSEGV: i32 = 11;

/// A script, its program, and arguments for it where there is a file `list`.
pub struct Script {
    pub name: &'static str,
    pub program: &'static str,
    pub arguments: &'static str,
}

impl Script {
    /// Where the script has its program.
    pub fn place(&self) -> String {
        format!("target/bin/{}", self.program)
    }

    /// A folder with the script and a list, but no program.
    fn unbuilt(&self, home: &Path) -> Folder {
        let folder = Folder::with_scripts("unbuilt", home, &[self.name]);
        folder.write(&format!("crates/{}/src/main.rt", self.program), b"");
        folder.write("list", &list(&on_one_qubit(&[])));
        folder
    }

    /// Runs the script in such a folder after some words of the shell.
    fn check(&self, folder: &Folder, before: &str, status: i32, errors: &[&str]) -> Checked {
        let command = format!("{before} ./{} {}", self.name, self.arguments);
        bash(&folder.path, &command, &[])?.check(status, b"", errors)
    }

    /// A stand-in for the prover, which is run in the program's folder, speaks on standard error, and runs what it built.
    fn prover(&self) -> String {
        let program = self.program;
        format!(
            "[ \"$*\" = run ] && [ \"${{PWD##*/}}\" = {program} ] && [ -f src/main.rt ] || exit 9
            echo 'fn algebra::sum: proved' >&2
            echo 'rt: algebra proved (6 s)' >&2
            echo 'library std: modules loaded=0' >&2
            echo 'rt: {program} proved (1 s)' >&2
            mkdir -p out
            printf '#!/bin/sh\\necho done\\n' >out/{program}
            chmod +x out/{program}
            echo 'rt: ok, 2 crates' >&2
            out/{program}"
        )
    }
}

fn stand_in(body: &str) -> Vec<u8> {
    format!("#!/bin/sh\n{body}\n").into_bytes()
}

/// A program that fails is no answer, whatever it printed; nor is one that prints nothing.
pub fn failing_programs(tally: &mut Tally, home: &Path, script: &Script) {
    let cases: [(&str, &str, i32); 4] = [
        ("fails", "exit 7", 7),
        ("fails after its line", "echo equal; exit 3", 3),
        ("is killed", "kill -SEGV $$", SIGNALLED + SIGSEGV),
        ("prints nothing", "exit 0", LOST),
    ];
    let message = format!("{}: the {} program", script.name, script.program);
    for (name, body, status) in cases {
        tally.case(&format!("{}, program that {name}", script.name), || {
            let folder = script.unbuilt(home);
            folder.write_script(&script.place(), &stand_in(body));
            script.check(&folder, "", status, &[&message])
        });
    }
}

pub fn builds(tally: &mut Tally, home: &Path, script: &Script) {
    tally.case(&format!("{}, a build", script.name), || build_succeeds(home, script));
    let fails_late = format!("{}\nexit 1", script.prover());
    for (name, prover) in [("that fails", "exit 1"), ("that fails late", &fails_late), ("of nothing", "exit 0")] {
        tally.case(&format!("{}, a build {name}", script.name), || build_fails(home, script, prover));
    }
    tally.case(&format!("{}, no toolchain", script.name), || no_toolchain(home, script));
}

/// The progress goes to standard error, the rest to the log, the answer alone to standard output.
fn build_succeeds(home: &Path, script: &Script) -> Checked {
    let folder = script.unbuilt(home);
    folder.write_script("tools/rt", &stand_in(&script.prover()));
    let Script { name, program, arguments } = script;
    // from another folder: the script finds its own
    let command = format!("mkdir away && cp list away && cd away && PATH=$OLDPWD/tools:$PATH ../{name} {arguments}");
    let ran = bash(&folder.path, &command, &[])?;
    let progress = format!("rt: algebra proved (6 s)\nrt: {program} proved (1 s)\n");
    let log = format!("target/{name}.log");
    ran.check(0, b"done\n", &[&progress, &format!("{log}\n")])?;
    if ran.errors.contains("fn algebra::sum") || ran.errors.contains("library std") {
        return Err(format!("the prover's output is shown: {}", ran.errors));
    }
    let all = format!(
        "fn algebra::sum: proved\nrt: algebra proved (6 s)\nlibrary std: modules loaded=0\n\
        rt: {program} proved (1 s)\nrt: ok, 2 crates\n"
    );
    alike("log", folder.read(&log), all)
}

/// What a build leaves that fails is not taken for a program by the next run.
fn build_fails(home: &Path, script: &Script, prover: &str) -> Checked {
    let folder = script.unbuilt(home);
    folder.write_script("tools/rt", &stand_in(prover));
    let errors = [&format!("{}: the build failed: see ", script.name)[..], &format!("target/{}.log\n", script.name)];
    script.check(&folder, "PATH=$PWD/tools:$PATH", UNUSABLE, &errors)?;
    script.check(&folder, "PATH=$PWD/tools:$PATH", UNUSABLE, &errors)
}

/// The PATH has the tools that the script needs, but for the prover.
fn no_toolchain(home: &Path, script: &Script) -> Checked {
    let folder = script.unbuilt(home);
    let links = "mkdir tools; for tool in bash dirname readlink mktemp cat rm; do
        ln -s \"$(command -v $tool)\" tools/; done; PATH=$PWD/tools";
    let message = format!("{}: the Rattle toolchain is missing", script.name);
    script.check(&folder, links, UNUSABLE, &[&message])
}
