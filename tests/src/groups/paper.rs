//! The paper's circuits, starred and unstarred: the lines it gives, from the dense program and from the library.

use crate::call;
use crate::circuits::{S, T, X, Y, Z, list, on_one_qubit};
use crate::dense::matrix::{CNOT, CZ, Gate, H};
use crate::dense::reader::Circuit;
use crate::dense::{self, Call, lengths, proportional};
use crate::tally::{Checked, Tally, alike};

/// One judged pair: a name, the call, the line.
struct Line {
    name: &'static str,
    call: Call,
    line: &'static str,
}

pub fn run(tally: &mut Tally) {
    for lines in [one_qubit(), many_h(), two_qubits(), widths(), sizes(), bytes()] {
        for line in lines {
            tally.case(line.name, || check(&line));
        }
    }
}

fn check(line: &Line) -> Checked {
    let expected = dense::judge(&line.call);
    alike("dense program", expected.report.to_string(), line.line.to_string())?;
    call::check(&line.call, 1, &expected)
}

/// A pair at width 32 and ample stores.
fn ample(u: &Circuit, v: &Circuit) -> Call {
    Call {
        list1: list(u),
        list2: list(v),
        schedule: proportional(u.gates.len(), v.gates.len()),
        w: 32,
        first: lengths(4096, 1024),
        second: lengths(4096, 1024),
    }
}

fn pair(u: &[u32], v: &[u32]) -> Call {
    ample(&on_one_qubit(u), &on_one_qubit(v))
}

fn of_width(w: u32, call: Call) -> Call {
    Call { w, ..call }
}

fn of_size(nodes: usize, values: usize, call: Call) -> Call {
    Call { first: lengths(nodes, values), second: lengths(nodes, values), ..call }
}

fn one_qubit() -> Vec<Line> {
    vec![
        Line {
            name: "circuit 1",
            call: pair(&[], &[]),
            line: "equal factor 0 0 0 1 exponent 0 steps 0 nodes 3 values 2",
        },
        Line {
            name: "circuit 2",
            call: pair(&[H, H], &[]),
            line: "equal factor 0 0 0 1 exponent 0 steps 2 nodes 3 values 2",
        },
        Line {
            name: "circuit 3",
            call: pair(&[X], &[]),
            line: "different row 0 column 1 entry 0 0 0 1 corner 0 0 0 0 exponent 0 steps 1 nodes 3 values 2",
        },
        Line {
            name: "circuit 4",
            call: pair(&[T], &[S]),
            line: "different row 1 column 1 entry -1 0 0 0 corner 0 0 0 1 exponent 0 steps 2 nodes 3 values 3",
        },
        Line {
            name: "circuit 5",
            call: pair(&[X, Z], &[Z, X]),
            line: "equal factor 0 0 0 -1 exponent 0 steps 4 nodes 3 values 2",
        },
        Line {
            name: "circuit 6, Y first",
            call: pair(&[Y], &[Z, X]),
            line: "equal factor 0 1 0 0 exponent 0 steps 3 nodes 3 values 2",
        },
        Line {
            name: "circuit 6, Y second",
            call: pair(&[Z, X], &[Y]),
            line: "equal factor 0 -1 0 0 exponent 0 steps 3 nodes 3 values 2",
        },
    ]
}

fn many_h() -> Vec<Line> {
    vec![
        Line {
            name: "circuit 12, 62 H",
            call: pair(&[H; 62], &[]),
            line: "equal factor 0 0 0 1 exponent 0 steps 62 nodes 3 values 2",
        },
        Line {
            name: "circuit 12, 60 H",
            call: pair(&[H; 60], &[]),
            line: "equal factor 0 0 0 1 exponent 0 steps 60 nodes 3 values 2",
        },
    ]
}

fn two_qubits() -> Vec<Line> {
    let circuit = |gates: &[Gate]| Circuit { qubits: 2, gates: gates.to_vec() };
    let cnot = circuit(&[Gate::new(CNOT, &[0, 1])]);
    let turned = circuit(&[Gate::new(CNOT, &[1, 0])]);
    let by_cz = circuit(&[Gate::new(H, &[1]), Gate::new(CZ, &[0, 1]), Gate::new(H, &[1])]);
    vec![
        Line {
            name: "circuit 7",
            call: ample(&cnot, &by_cz),
            line: "equal factor 0 0 0 1 exponent 0 steps 4 nodes 6 values 2",
        },
        Line {
            name: "circuit 8",
            call: ample(&cnot, &turned),
            line: "different row 1 column 1 entry 0 0 0 0 corner 0 0 0 1 exponent 0 steps 2 nodes 9 values 2",
        },
    ]
}

fn widths() -> Vec<Line> {
    vec![
        Line { name: "circuit 9, width 2", call: of_width(2, pair(&[H, H], &[])), line: "refused 13 steps 1" },
        Line {
            name: "circuit 9, width 3",
            call: of_width(3, pair(&[H, H], &[])),
            line: "equal factor 0 0 0 1 exponent 0 steps 2 nodes 3 values 2",
        },
        Line {
            name: "circuit 10",
            call: of_width(2, pair(&[X, Z, X, Z, H, H], &[])),
            line: "equal factor 0 0 0 -1 exponent 0 steps 6 nodes 3 values 2",
        },
        Line {
            name: "circuit 10, one Z more",
            call: of_width(2, pair(&[X, Z, X, Z, H, H, Z], &[])),
            line: "different row 1 column 1 entry 0 0 0 1 corner 0 0 0 -1 exponent 0 steps 7 nodes 3 values 3",
        },
    ]
}

fn sizes() -> Vec<Line> {
    vec![
        Line { name: "circuit 11, N = 2", call: of_size(2, 8, pair(&[], &[])), line: "refused 14 steps 0" },
        Line {
            name: "circuit 11, N = 3",
            call: of_size(3, 8, pair(&[], &[])),
            line: "equal factor 0 0 0 1 exponent 0 steps 0 nodes 3 values 2",
        },
        Line {
            name: "circuit 11, N = 3, H H",
            call: of_size(3, 8, pair(&[H, H], &[])),
            line: "equal factor 0 0 0 1 exponent 0 steps 2 nodes 3 values 2",
        },
        Line { name: "circuit 11, L = 2", call: of_size(3, 2, pair(&[T], &[])), line: "refused 14 steps 0" },
        Line {
            name: "circuit 11, L = 3",
            call: of_size(3, 3, pair(&[T], &[])),
            line: "different row 1 column 1 entry 0 0 1 0 corner 0 0 0 1 exponent 0 steps 1 nodes 3 values 3",
        },
    ]
}

fn bytes() -> Vec<Line> {
    let of_bytes = |list1: &[u8]| Call { list1: list1.to_vec(), ..pair(&[], &[]) };
    vec![
        Line { name: "circuit 13, 81 00 00", call: of_bytes(&[0x81, 0, 0]), line: "refused 4 list 1 byte 0" },
        Line { name: "circuit 13, no bytes", call: of_bytes(&[]), line: "refused 3 list 1 byte 0" },
    ]
}
