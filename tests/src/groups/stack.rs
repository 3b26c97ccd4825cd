//! Calls on threads with as much stack as the header asks for. One that needs more ends its process.

use std::ffi::OsStr;
use std::path::Path;

use gannetrope::{MOST_GATES, MOST_SLOTS};

use crate::circuits::{S, T, list, on_one_qubit, program_input, random_circuit};
use crate::dense::matrix::{FREDKIN, Gate, H, TOFFOLI};
use crate::dense::miter::Run;
use crate::dense::reader::Circuit;
use crate::dense::{self, Call, lengths};
use crate::groups::slow::full_layer;
use crate::limited;
use crate::on_thread::{Kind, MOST_SMALL, OnThread, StackUse};
use crate::program::Program;
use crate::random::Random;
use crate::tally::{Checked, Tally, alike};

/// The verdict program's stack, in kilobytes: what README says, and room for its environment.
const FOR_PROGRAM: u32 = 1280;

const QUBITS: u32 = 16;

/// The gates of a full layer, and what its run needs: the zero is met before the last H.
const LAYER: usize = 2 * QUBITS as usize;
const LAYER_NODES: usize = 180;
const LAYER_VALUES: usize = 5;

/// What the layer's matrix comes to: its entries are 1, i, −1 and −i.
const LAYER_LINE: &str =
    "different row 0 column 1 entry 0 1 0 0 corner 0 0 0 1 exponent 16 steps 32 nodes 180 values 4";

/// What the layer and two gates of many controls come to against themselves.
const CONTROLLED_LINE: &str = "equal factor 0 0 0 1 exponent 0 steps 68 nodes 48 values 2";

/// More turns of T and H on one qubit than it takes to bring a number out of width 32.
const TURNS: usize = 200;

/// A call, and the line that it must come to.
struct Case {
    name: &'static str,
    call: Call,
    line: String,
}

pub fn run(tally: &mut Tally, home: &Path, library: &Path, program: &Program, seed: u64) {
    let on_thread = match OnThread::compile(home, library) {
        Ok(on_thread) => on_thread,
        Err(wrong) => return tally.case("calls on a thread", || Err(wrong)),
    };
    let kinds = [(Kind::Refused, refused(seed)), (Kind::Small, runs(MOST_SMALL)), (Kind::Large, runs(MOST_SLOTS))];
    for (kind, cases) in kinds {
        let mut most = StackUse::default();
        for case in cases {
            tally.case(&format!("stack, {}, {}", kind.name(), case.name), || check(&on_thread, &case, kind, &mut most));
        }
        println!("  {}: {} bytes of stack used, of {}", kind.name(), most.used, most.size);
    }
    tally.case("program on a short stack", || check_program(program));
}

fn check(on_thread: &OnThread, case: &Case, kind: Kind, most: &mut StackUse) -> Checked {
    let answer = on_thread.judge_as(&case.call, kind)?;
    if answer.stack.used > most.used {
        *most = answer.stack;
    }
    alike("line", &answer.line, &case.line)
}

fn call(u: &Circuit, v: &Circuit, nodes: usize, values: usize) -> Call {
    // all of list 1 first, so that its whole matrix is met
    let schedule = [vec![0; u.gates.len()], vec![1; v.gates.len()]].concat();
    let store = lengths(nodes, values);
    Call { list1: list(u), list2: list(v), schedule, w: 32, first: store, second: store }
}

// ---- refused before a run, whatever the stores

fn refused(seed: u64) -> Vec<Case> {
    let circuit = random_circuit(&mut Random::new(seed), QUBITS, MOST_GATES as usize);
    let fine = call(&circuit, &circuit, MOST_SLOTS, MOST_SLOTS);
    let cut = |list: &[u8]| list[..list.len() - 1].to_vec();
    let too_long = lengths(MOST_SLOTS + 1, MOST_SLOTS + 1);
    let calls = [
        ("width 1", Call { w: 1, ..fine.clone() }),
        ("columns of 65,537", Call { first: too_long, second: too_long, ..fine.clone() }),
        ("list 1 cut", Call { list1: cut(&fine.list1), ..fine.clone() }),
        ("list 2 cut", Call { list2: cut(&fine.list2), ..fine.clone() }),
        ("qubits that differ", Call { list2: vec![1, 0], ..fine.clone() }),
        ("no schedule", Call { schedule: Vec::new(), ..fine.clone() }),
    ];
    calls.map(|(name, call)| Case { name, line: dense::judge(&call).report.to_string(), call }).into()
}

// ---- runs of sixteen qubits, whose answers are known

fn layer_and(more: &[Gate]) -> Circuit {
    Circuit { qubits: QUBITS, gates: [&full_layer(QUBITS, || S), more].concat() }
}

/// A Fredkin and a Toffoli gate that name every qubit.
fn many_controls() -> [Gate; 2] {
    let inner: Vec<u32> = (1..QUBITS - 1).collect();
    let swap = Gate::controlled(FREDKIN, &inner, &[QUBITS - 1, 0]);
    [swap, Gate::controlled(TOFFOLI, &[&inner[..], &[QUBITS - 1]].concat(), &[0])]
}

/// T and H on qubit 0 by turns, after what a layer has there, up to the H that brings a number out of width 32. On
/// other qubits a layer's entries are roots of unity, so the dense program can tell from one qubit.
fn out_of_width() -> Vec<Gate> {
    let in_layer = [S, H];
    let word = on_one_qubit(&[&in_layer[..], &[T, H].repeat(TURNS)].concat());
    let run = Run::of(&word, &on_one_qubit(&[]), &vec![0; word.gates.len()]);
    let (identity, taken) = (1, run.needs.len());
    word.gates[in_layer.len()..taken - identity].to_vec()
}

fn runs(most: usize) -> Vec<Case> {
    let none = Circuit { qubits: QUBITS, gates: Vec::new() };
    let layer = layer_and(&[]);
    let split = layer_and(&[Gate::new(T, &[0])]);
    let controlled = layer_and(&many_controls());
    let too_wide = layer_and(&out_of_width());
    let equal = "equal factor 0 0 0 1 exponent 0 steps 66 nodes 48 values 2";
    let out_of_width = format!("refused 13 steps {}", too_wide.gates.len() - 1);
    let out_of_room = format!("refused 14 steps {LAYER}");
    let case = |name, call, line: &str| Case { name, call, line: line.to_string() };
    vec![
        case("equal", call(&split, &split, most, most), equal),
        case("equal, many controls", call(&controlled, &controlled, most, most), CONTROLLED_LINE),
        case("different", call(&layer, &none, most, most), LAYER_LINE),
        case("refused 13", call(&too_wide, &none, most, most), &out_of_width),
        case("refused 14 for nodes", call(&split, &none, LAYER_NODES, most), &out_of_room),
        case("refused 14 for values", call(&split, &none, most, LAYER_VALUES), &out_of_room),
    ]
}

// ---- the verdict program

fn check_program(program: &Program) -> Checked {
    let none = Circuit { qubits: QUBITS, gates: Vec::new() };
    let input = program_input(&list(&layer_and(&[])), &list(&none));
    let script = format!("ulimit -s {FOR_PROGRAM} && exec \"$0\"");
    let arguments = [OsStr::new("-c"), OsStr::new(&script), program.path.as_os_str()];
    let ended = limited::run(OsStr::new("sh"), &arguments, &input)?;
    alike("line", ended.output.trim_end(), LAYER_LINE)
}
