//! The inverse program, and the script invert that runs it on a file.

use std::path::Path;
use std::process::Command;

use crate::circuits::{S, T, list, longest, on_one_qubit, random_circuit};
use crate::dense::inverse::{fill_inverse, undone};
use crate::groups::masks::faulty_lists;
use crate::hex;
use crate::random::Random;
use crate::scripts::{LOST, Script, UNUSABLE, builds, failing_programs};
use crate::shell::{Folder, bash, run_on};
use crate::tally::{Checked, Tally, alike};

const INVERT: Script = Script { name: "invert", program: "inverse", arguments: "list" };

/// The script's status for a list that is refused.
const REFUSED: i32 = 3;

pub fn run(tally: &mut Tally, home: &Path, program: &Path, seed: u64) {
    let folder = Folder::with_scripts("invert", home, &[INVERT.name]);
    folder.link(&INVERT.place(), program);
    lists(tally, &folder, program, seed);
    good_inputs(tally, &folder);
    bad_inputs(tally, &folder);
    bad_outputs(tally, &folder, program);
    tally.case("invert, temporary files", || leaves_nothing(&folder));
    failing_programs(tally, home, &INVERT);
    builds(tally, home, &INVERT);
}

// ---- lists

/// Lists of many lengths, cut and continued ones, and some that are longer than the program's buffer.
fn lists(tally: &mut Tally, folder: &Folder, program: &Path, seed: u64) {
    let mut random = Random::new(seed);
    for (qubits, gates) in [(1, 0), (1, 1), (3, 60), (16, 127), (16, 128), (16, 4096)] {
        let whole = list(&random_circuit(&mut random, qubits, gates));
        let name = format!("inverse program, {qubits} qubits, {gates} gates, seed {seed}");
        tally.case(&name, || check_list(folder, program, &whole));
        let cut = &whole[..random.below(whole.len())];
        tally.case(&format!("{name}, cut"), || check_list(folder, program, cut));
        for more in [1, 40_000] {
            let longer = [&whole[..], &vec![0; more]].concat();
            tally.case(&format!("{name}, {more} bytes more"), || check_list(folder, program, &longer));
        }
    }
    tally.case("inverse program, the longest list", || check_list(folder, program, &list(&longest())));
    tally.case("inverse program, lists with bad masks", || {
        faulty_lists().try_for_each(|list| check_list(folder, program, &list))
    });
    for bytes in [0, 1, 32_767, 32_768, 32_769, 3_000_000] {
        let zeros = vec![0; bytes];
        tally.case(&format!("inverse program, {bytes} zeros"), || check_list(folder, program, &zeros));
    }
}

/// By the program, whose only status is 0, and by the script.
fn check_list(folder: &Folder, program: &Path, bytes: &[u8]) -> Checked {
    let mut buffer = bytes.to_vec();
    let (output, line) = match fill_inverse(bytes, &mut buffer) {
        Ok(length) => (&buffer[..length], None),
        Err(refusal) => (&[][..], Some(refusal.to_string())),
    };
    let said = |wrong| format!("{wrong}\n  list {}", hex::encode(&bytes[..bytes.len().min(100)]));
    let input = folder.write("input", bytes);
    let ran = run_on(&mut Command::new(program), &input)?;
    ran.check(0, output, &[]).map_err(said)?;
    alike("standard error", ran.errors, line.clone().map_or(String::new(), |line| line + "\n")).map_err(said)?;

    let ran = bash(&folder.path, "./invert input", &[])?;
    let status = if line.is_some() { REFUSED } else { 0 };
    ran.check(status, output, &[]).map_err(said)?;
    alike("standard error", ran.errors, line.map_or(String::new(), |line| format!("invert: {line}\n"))).map_err(said)
}

// ---- the script's inputs and outputs

/// Files and pipes, from any folder and through links.
fn good_inputs(tally: &mut Tally, folder: &Folder) {
    let circuit = on_one_qubit(&[S, T]);
    let inverse = list(&undone(&circuit));
    folder.write("u", &list(&circuit));
    folder.link("links/once", Path::new("../invert"));
    let scripts = [
        "./invert u",
        "./invert <(cat u)",
        "cat u | ./invert /dev/stdin",
        "./invert /dev/stdin <u",
        "cp u 'a b'; ./invert 'a b'",
        "cp u ./-; ./invert -",
        "links/once u",
        "cd links && ../invert ../u",
        "./invert u | cat",
        "./invert u >v; ./invert v | cmp - u && cat v",
    ];
    for script in scripts {
        tally.case(script, || bash(&folder.path, script, &[])?.check(0, &inverse, &[]));
    }
}

fn bad_inputs(tally: &mut Tally, folder: &Folder) {
    for script in
        ["./invert", "./invert u u", "./invert missing", "./invert links", "./invert /dev/null", "./invert ''"]
    {
        tally.case(script, || bash(&folder.path, script, &[])?.check(UNUSABLE, b"", &["invert: "]));
    }
}

/// An inverse that cannot be written is no success; the program alone can only say so.
fn bad_outputs(tally: &mut Tally, folder: &Folder, program: &Path) {
    for output in [">&-", ">/dev/full"] {
        let script = format!("./invert u {output}");
        let message = "invert: the inverse could not be written";
        tally.case(&script, || bash(&folder.path, &script, &[])?.check(LOST, b"", &[message]));

        let script = format!("\"$PROGRAM\" <u {output}");
        let message = "inverse: the list could not be written";
        tally.case(&script, || bash(&folder.path, &script, &[("PROGRAM", program)])?.check(0, b"", &[message]));
    }
}

/// No copy of a list outlives the script, however it ends.
fn leaves_nothing(folder: &Folder) -> Checked {
    let script = "mkdir temporary; export TMPDIR=$PWD/temporary
        ./invert u; ./invert missing; ./invert invert; ./invert u >/dev/full";
    bash(&folder.path, script, &[])?;
    alike("files left", folder.count("temporary"), 0)
}
