//! The script judge: its inputs, its output, a program that fails, and the build.

use std::path::Path;

use crate::circuits::{X, Y, Z, list, on_one_qubit, program_input, random_circuit};
use crate::dense::verdict_line;
use crate::program::Program;
use crate::random::Random;
use crate::scripts::{LOST, Script, UNUSABLE, builds, failing_programs};
use crate::shell::{Folder, SIGNALLED, bash};
use crate::tally::{Checked, Tally, alike};

const JUDGE: Script = Script { name: "judge", program: "verdict", arguments: "list list" };

const SIGPIPE: i32 = 13;

pub fn run(tally: &mut Tally, home: &Path, program: &Program, seed: u64) {
    let folder = Folder::with_scripts("judge", home, &[JUDGE.name]);
    folder.link(&JUDGE.place(), &program.path);
    // the two orders of this pair have different factors, so lists that change places show
    let (u, v) = (list(&on_one_qubit(&[Y])), list(&on_one_qubit(&[Z, X])));
    folder.write("u", &u);
    folder.write("v", &v);
    let line = verdict_line(&program_input(&u, &v));
    good_inputs(tally, &folder, &line);
    lists(tally, &folder, seed);
    bad_inputs(tally, &folder);
    bad_outputs(tally, &folder);
    tally.case("judge, temporary files", || leaves_nothing(&folder));
    failing_programs(tally, home, &JUDGE);
    builds(tally, home, &JUDGE);
}

fn check(folder: &Folder, script: &str, status: i32, output: &str, errors: &[&str]) -> Checked {
    bash(&folder.path, script, &[])?.check(status, output.as_bytes(), errors)
}

/// Files and pipes, from any folder and through links.
fn good_inputs(tally: &mut Tally, folder: &Folder, line: &str) {
    folder.link("links/once", Path::new("../judge"));
    folder.link("links/twice", Path::new("once"));
    let scripts = [
        "./judge u v",
        "./judge <(cat u) v",
        "./judge u <(cat v)",
        "./judge <(cat u) <(cat v)",
        "cat u | ./judge /dev/stdin v",
        "cat v | ./judge u /dev/stdin",
        "./judge /dev/stdin v <u",
        "trap 'kill $(jobs -pr)' EXIT; mkfifo p q; cat u >p & cat v >q & ./judge p q",
        "cp u ./-; cp v 'a b'; ./judge - 'a b'",
        "links/once u v",
        "links/twice u v",
        "cd links && ../judge ../u ../v",
        "cd / && \"$OLDPWD/links/twice\" \"$OLDPWD/u\" \"$OLDPWD/v\"",
        "PATH=$PWD:$PATH; cd links && judge ../u ../v",
    ];
    for script in scripts {
        tally.case(script, || check(folder, script, 0, line, &[]));
    }
}

/// Lists of many lengths, refused ones too: their lengths take one to four groups of bits.
fn lists(tally: &mut Tally, folder: &Folder, seed: u64) {
    let mut random = Random::new(seed);
    for gates in [0, 1, 60, 70, 300] {
        let (u, v) = (random_circuit(&mut random, 3, gates), random_circuit(&mut random, 3, 10));
        let name = format!("judge, {gates} gates, seed {seed}");
        tally.case(&name, || check_lists(folder, &list(&u), &list(&v)));
    }
    for bytes in [0, 127, 128, 16_383, 16_384, 40_000, 2_097_151, 2_097_152] {
        let zeros = vec![0; bytes];
        tally.case(&format!("judge, list 1 of {bytes} zeros"), || check_lists(folder, &zeros, &[1, 0]));
        tally.case(&format!("judge, list 2 of {bytes} zeros"), || check_lists(folder, &[1, 0], &zeros));
    }
}

fn check_lists(folder: &Folder, list1: &[u8], list2: &[u8]) -> Checked {
    folder.write("list1", list1);
    folder.write("list2", list2);
    let line = verdict_line(&program_input(list1, list2));
    check(folder, "./judge list1 list2", 0, &line, &[])
}

/// What is no readable file or pipe, in both places.
fn bad_inputs(tally: &mut Tally, folder: &Folder) {
    folder.link("dangling", Path::new("nowhere"));
    // this one can be opened, or not, and no one can read its first byte
    let unreadable = format!("/proc/{}/mem", std::process::id());
    let check_bad = |script: &str| check(folder, script, UNUSABLE, "", &["judge: "]);
    for name in ["missing", "links", "dangling", "/dev/null", "''", &unreadable] {
        for script in [format!("./judge {name} v"), format!("./judge u {name}")] {
            tally.case(&script, || check_bad(&script));
        }
    }
    for script in ["./judge", "./judge u", "./judge u v u"] {
        tally.case(script, || check_bad(script));
    }
}

/// An answer that cannot be written is no success.
fn bad_outputs(tally: &mut Tally, folder: &Folder) {
    let cases: [(&str, i32, &[&str]); 4] = [
        ("./judge u v >&-", LOST, &["judge: the answer could not be written"]),
        ("./judge u v >/dev/full", LOST, &["judge: the answer could not be written"]),
        ("exec 3> >(:); wait $!; ./judge u v >&3", SIGNALLED + SIGPIPE, &[]),
        ("trap '' PIPE; exec 3> >(:); wait $!; ./judge u v >&3", LOST, &["judge: the answer could not be written"]),
    ];
    for (script, status, errors) in cases {
        tally.case(script, || check(folder, script, status, "", errors));
    }
}

/// No copy of a list outlives the script, however it ends.
fn leaves_nothing(folder: &Folder) -> Checked {
    let script = "mkdir temporary; export TMPDIR=$PWD/temporary
        ./judge u v; ./judge u missing; ./judge u v >/dev/full; exec 3> >(:); wait $!; ./judge u v >&3";
    bash(&folder.path, script, &[])?;
    alike("files left", folder.count("temporary"), 0)
}
