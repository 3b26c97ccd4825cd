//! The examples and the script that turns texts into lists and back.

use std::path::{Path, PathBuf};
use std::process::Command;

use crate::circuits::{X, list, on_one_qubit, random_circuit};
use crate::dense::reader::{Circuit, read_list};
use crate::groups::masks::faulty_lists;
use crate::hex;
use crate::random::Random;
use crate::shell::{Folder, Ran, bash, run_on};
use crate::tally::{Checked, Tally};

/// The names that a text has for the gates, by their codes.
const NAMES: [&str; 12] = ["x", "y", "z", "h", "s", "sdg", "t", "tdg", "cx", "cz", "mcx", "mcswap"];

/// The status of a refused text or list.
const REFUSED: i32 = 2;

const EXAMPLES: [&str; 4] = ["toffoli", "toffoli-rewritten", "toffoli-wrong", "toffoli-gate"];

/// The script, and a folder for what it is given.
struct Script {
    path: PathBuf,
    folder: Folder,
}

impl Script {
    fn run(&self, direction: &str, input: &[u8]) -> Result<Ran, String> {
        run_on(Command::new(&self.path).arg(direction), &self.folder.write("input", input))
    }

    fn check(&self, direction: &str, input: &[u8], output: &[u8]) -> Checked {
        self.run(direction, input)?.check(0, output, &[])
    }

    /// The script must refuse the input, with a message that has these parts.
    fn check_refused(&self, direction: &str, input: &[u8], message: &[&str]) -> Checked {
        self.run(direction, input)?.check(REFUSED, &[], message)
    }

    fn check_both_ways(&self, text: &str, list: &[u8]) -> Checked {
        self.check("encode", text.as_bytes(), list)?;
        self.check("decode", list, text.as_bytes())
    }
}

pub fn run(tally: &mut Tally, home: &Path, seed: u64) {
    let examples = home.join("../examples");
    let script = Script { path: examples.join("list"), folder: Folder::new("examples") };
    for name in EXAMPLES {
        tally.case(&format!("example {name}"), || check_example(&script, &examples, name));
    }
    random_circuits(tally, &script, seed);
    loose_texts(tally, &script);
    bad_texts(tally, &script);
    damaged_lists(tally, &script, seed);
    bad_calls(tally, &script);
}

fn check_example(script: &Script, examples: &Path, name: &str) -> Checked {
    let read = |extension| std::fs::read(examples.join(name).with_extension(extension));
    let (text, list) = (read("txt").expect("a text"), read("list").expect("a list"));
    script.check_both_ways(&String::from_utf8_lossy(&text), &list)
}

/// The circuit as a text.
fn text(circuit: &Circuit) -> String {
    let mut text = format!("qubits {}\n", circuit.qubits);
    for gate in &circuit.gates {
        text += NAMES[gate.code as usize];
        gate.qubits.iter().for_each(|qubit| text += &format!(" {qubit}"));
        text += "\n";
    }
    text
}

fn random_circuits(tally: &mut Tally, script: &Script, seed: u64) {
    let mut random = Random::new(seed);
    for (qubits, gates) in [(1, 0), (1, 9), (2, 50), (3, 127), (4, 128), (5, 129), (10, 200), (16, 300), (16, 4096)] {
        let circuit = random_circuit(&mut random, qubits, gates);
        let name = format!("text of {qubits} qubits, {gates} gates, seed {seed}");
        tally.case(&name, || script.check_both_ways(&text(&circuit), &list(&circuit)));
    }
    let alike = on_one_qubit(&[X; 100]);
    tally.case("text of 100 gates alike", || script.check_both_ways(&text(&alike), &list(&alike)));
}

/// Comments, blanks and a last line that does not end.
fn loose_texts(tally: &mut Tally, script: &Script) {
    for text in [
        "qubits 2\nh 0\ncx 0 1",
        "\n# a Bell pair\nqubits 2 # two of them\n\n\th  0\n#x 0\n  cx\t0 1#\n\n",
        "qubits 2\nh 0 # x 1\ncx 0 1 ## # \n",
    ] {
        let name = format!("text {text:?}");
        tally.case(&name, || script.check("encode", text.as_bytes(), &[2, 2, 3, 0, 8, 0, 1]));
    }
    // controls are a set, targets are not
    let text = "qubits 4\nmcx 2 0 3 1\nmcswap 3 1 2 0\nmcswap 1 3 0 2\n";
    let list = [4, 3, 10, 0b1101, 1, 11, 0b1010, 2, 0, 11, 0b1010, 0, 2];
    tally.case("text of controls in any order", || script.check("encode", text.as_bytes(), &list));
}

/// What a text must not have, the line where it shows, and what else the message says.
const BAD_TEXTS: [(&str, &str, &str); 41] = [
    ("", "line 1:", "'qubits N'"),
    ("h 0\n", "line 1:", "'qubits N'"),
    ("# nothing\n", "line 2:", "'qubits N'"),
    ("qubits\n", "line 1:", "'qubits N'"),
    ("qubits 1 2\n", "line 1:", "'qubits N'"),
    ("qubits 0\n", "line 1:", "refusal 5"),
    ("\nqubits 17\n", "line 2:", "refusal 5"),
    ("qubits -1\n", "line 1:", "refusal 5"),
    ("qubits 01\n", "line 1:", "refusal 5"),
    ("qubits two\n", "line 1:", "refusal 5"),
    ("qubits 18446744073709551617\n", "line 1:", "refusal 5"),
    ("qubits 2\nqubits 2\n", "line 2:", "'qubits'"),
    ("qubits 2\n\nh 0\nH 0\n", "line 4:", "'H'"),
    ("qubits 2\n* 0\n", "line 2:", "'*'"),
    ("qubits 2\nh\n", "line 2:", "1 qubit(s), not 0"),
    ("qubits 2\nh 0 1\n", "line 2:", "1 qubit(s), not 2"),
    ("qubits 2\ncx 0\n", "line 2:", "2 qubit(s), not 1"),
    ("qubits 2\nh 2\n", "line 2:", "refusal 8"),
    ("qubits 2\nh -1\n", "line 2:", "refusal 8"),
    ("qubits 2\nh 00\n", "line 2:", "refusal 8"),
    ("qubits 2\nh q[0]\n", "line 2:", "refusal 8"),
    ("qubits 2\nh 18446744073709551616\n", "line 2:", "refusal 8"),
    ("qubits 2\ncz 0 2\n", "line 2:", "refusal 8"),
    ("qubits 2\nh 0\ncx 1 1\n", "line 3:", "refusal 9"),
    ("qubits 2\nh 0\nh 1\0\nx 0\n", "line 3:", "NUL"),
    ("qubits 3\nmcx\n", "line 2:", "3 or more qubits, not 0"),
    ("qubits 3\nmcswap 1\n", "line 2:", "3 or more qubits, not 1"),
    ("qubits 3\nmcx 2\n", "line 2:", "refusal 17"),
    ("qubits 3\nmcx 0 2\n", "line 2:", "refusal 17"),
    ("qubits 3\nmcx 0 0\n", "line 2:", "refusal 17"),
    ("qubits 3\nmcx 0 3\n", "line 2:", "refusal 17"),
    ("qubits 3\nmcswap 1 2\n", "line 2:", "refusal 17"),
    ("qubits 3\nmcx 3 2\n", "line 2:", "refusal 8"),
    ("qubits 3\nmcx 0 01 2\n", "line 2:", "refusal 8"),
    ("qubits 3\nmcx 0 1 3\n", "line 2:", "refusal 8"),
    ("qubits 3\nmcswap 0 1 3\n", "line 2:", "refusal 8"),
    ("qubits 3\nmcx 0 1 1\n", "line 2:", "refusal 9"),
    ("qubits 3\nmcswap 0 0 1\n", "line 2:", "refusal 9"),
    ("qubits 3\nmcswap 0 1 0\n", "line 2:", "refusal 9"),
    ("qubits 3\nmcswap 0 1 1\n", "line 2:", "refusal 9"),
    ("qubits 4\nmcx 0 1 0 3\n", "line 2:", "control 0 is named twice"),
];

fn bad_texts(tally: &mut Tally, script: &Script) {
    for (text, line, message) in BAD_TEXTS {
        let name = format!("bad text {text:?}");
        tally.case(&name, || script.check_refused("encode", text.as_bytes(), &["list: ", line, message]));
    }
    let long = format!("qubits 1\n{}", "x 0\n".repeat(4097));
    tally.case("text of 4,097 gates", || script.check_refused("encode", long.as_bytes(), &["line 4098:", "refusal 6"]));
}

/// Every prefix of a list and many changes of it, against the dense program's reader.
fn damaged_lists(tally: &mut Tally, script: &Script, seed: u64) {
    let whole = list(&random_circuit(&mut Random::new(seed), 3, 6));
    let prefixes = (0..whole.len()).map(|length| whole[..length].to_vec());
    tally.case(&format!("prefixes of a list, seed {seed}"), || check_all(script, prefixes));
    for place in 0..whole.len() {
        let changed = [0, 1, 3, 4, 9, 10, 11, 12, 16, 17, 127, 128, 255].map(|byte| {
            let mut damaged = whole.clone();
            damaged[place] = byte;
            damaged
        });
        tally.case(&format!("list with byte {place} changed, seed {seed}"), || check_all(script, changed));
    }
    let counts: [&[u8]; 8] = [
        &[0x81, 0],
        &[0x80, 0x80, 0],
        &[0x80, 0x80, 0x80],
        &[1, 0x80, 0x20],
        &[1, 0x81, 0x20],
        &[1, 0xff, 0xff, 0x7f],
        &[1, 0, 0],
        &[1, 1, 0x8a, 1],
    ];
    tally.case("lists with numbers of many bytes", || check_all(script, counts.map(<[u8]>::to_vec)));
    tally.case("lists with bad masks", || check_all(script, faulty_lists()));
}

fn check_all(script: &Script, lists: impl IntoIterator<Item = Vec<u8>>) -> Checked {
    lists.into_iter().try_for_each(|list| {
        let checked = match read_list(&list) {
            Ok(circuit) => script.check_both_ways(&text(&circuit), &list),
            Err(fault) => {
                let (byte, number) = (format!("list: byte {}:", fault.offset), format!("(refusal {})", fault.number));
                script.check_refused("decode", &list, &[&byte, &number])
            }
        };
        checked.map_err(|wrong| format!("{wrong}\n  list {}", hex::encode(&list)))
    })
}

/// No direction, two of them, another one; an output that takes nothing; an input that cannot be read.
fn bad_calls(tally: &mut Tally, script: &Script) {
    let cases = [
        ("\"$LIST\"", "list: usage"),
        ("\"$LIST\" encode decode", "list: usage"),
        ("\"$LIST\" write", "list: usage"),
        ("printf 'qubits 1\\n' | \"$LIST\" encode >/dev/full", "list: the list could not be written"),
        ("printf '\\x01\\x00' | \"$LIST\" decode >&-", "list: the text could not be written"),
        ("\"$LIST\" encode </", "list: the text could not be read"),
        ("\"$LIST\" decode </", "list: the list could not be read"),
    ];
    for (words, message) in cases {
        tally.case(&format!("list, {words}"), || {
            bash(&script.folder.path, words, &[("LIST", &script.path)])?.check(REFUSED, &[], &[message])
        });
    }
}
