//! The kept vectors: inputs with the results that another implementation gave.

use std::path::Path;

use gannetrope::{Entry, Node, Refusal, Report, Verdict, fill_inverse, fill_proportional};

use crate::call;
use crate::dense::diagram::Diagram;
use crate::dense::miter::MOST_QUBITS;
use crate::dense::reader::read_list;
use crate::dense::{self, Call, Outcome, Stores};
use crate::hex;
use crate::json::Json;
use crate::program::Program;
use crate::tally::{Checked, Tally, alike};

pub fn run(tally: &mut Tally, directory: &Path, program: &Program) {
    let mut all = |file: &str, check: &dyn Fn(&Json) -> Checked| {
        for vector in lines(directory, file) {
            tally.case(&format!("{file}, {}", vector.text("name")), || check(&vector));
        }
    };
    all("api-stage00", &check_call);
    all("api-stage02", &check_call);
    all("api-stage04", &check_call);
    all("schedule", &check_schedule);
    all("inverse-stage01", &check_inverse);
    all("inverse-stage02", &check_inverse);
    all("verdict-stage00", &|vector| check_line(vector, program));
    all("verdict-stage02", &|vector| check_line(vector, program));
    all("verdict-stage04", &|vector| check_line(vector, program));
}

fn lines(directory: &Path, file: &str) -> Vec<Json> {
    let path = directory.join(file).with_extension("jsonl");
    let text = std::fs::read_to_string(&path).unwrap_or_else(|error| panic!("{}: {error}", path.display()));
    text.lines().map(Json::parse).collect()
}

// ---- calls

fn check_call(vector: &Json) -> Checked {
    let call = Call {
        list1: hex::decode(vector.text("list1")),
        list2: hex::decode(vector.text("list2")),
        schedule: hex::decode(vector.text("schedule")),
        w: vector.number("w"),
        first: columns(vector, "columns1"),
        second: columns(vector, "columns2"),
    };
    let stores = match vector.text("stores") {
        "unchanged" => Stores::Unchanged,
        "zero" => Stores::Zero,
        "diagram" => Stores::Diagram(diagram(vector.get("used"))),
        other => panic!("no stores are {other}"),
    };
    let expected = Outcome { report: report(vector.get("expect")), stores };
    if small(&call.list1, &call.list2) && dense::judge(&call) != expected {
        return Err(format!("dense program: found {}", dense::judge(&call).report));
    }
    call::check(&call, vector.number("dirty_seed"), &expected)
}

fn columns(vector: &Json, name: &str) -> dense::Lengths {
    vector.numbers(name).try_into().expect("seven lengths")
}

fn diagram(used: &Json) -> Diagram {
    let [level, low, high] = ["level", "low", "high"].map(|name| used.numbers::<u32>(name));
    let [a, b, c, d] = ["a", "b", "c", "d"].map(|name| used.numbers::<i32>(name));
    let node = |slot| Node { level: level[slot], low: low[slot], high: high[slot] };
    let value = |slot| Entry::new(a[slot], b[slot], c[slot], d[slot]).into();
    Diagram { nodes: (0..level.len()).map(node).collect(), values: (0..a.len()).map(value).collect() }
}

fn report(expect: &Json) -> Report {
    let verdict = match expect.text("verdict") {
        "equal" => Verdict::Equal { factor: entry(expect, "factor") },
        "different" => Verdict::Different {
            row: expect.number("row"),
            column: expect.number("column"),
            entry: entry(expect, "entry"),
            corner: entry(expect, "corner"),
        },
        "refused" => return Report::refused(refusal(expect)),
        other => panic!("no verdict is {other}"),
    };
    Report {
        verdict,
        exponent: expect.number("exponent"),
        steps: expect.number("steps"),
        nodes: expect.number("nodes"),
        values: expect.number("values"),
    }
}

fn entry(expect: &Json, name: &str) -> Entry {
    let [a, b, c, d] = expect.numbers(name).try_into().expect("four numbers");
    Entry::new(a, b, c, d)
}

fn refusal(expect: &Json) -> Refusal {
    let number = expect.number("number");
    if expect.has("list") {
        Refusal::Byte { number, list: expect.number("list"), offset: expect.number("offset") }
    } else if expect.has("steps") {
        Refusal::Step { number, steps: expect.number("steps") }
    } else {
        Refusal::Call { number }
    }
}

/// Whether the dense program can judge the lists: both are of few qubits, or one is refused anyway.
fn small(list1: &[u8], list2: &[u8]) -> bool {
    match (read_list(list1), read_list(list2)) {
        (Ok(u), Ok(v)) => u.qubits != v.qubits || u.qubits <= MOST_QUBITS,
        _ => true,
    }
}

// ---- schedules

fn check_schedule(vector: &Json) -> Checked {
    let expect = vector.get("expect");
    let returned: Result<usize, Refusal> = match expect.has("refused") {
        true => Err(Refusal::Call { number: expect.number("refused") }),
        false => Ok(expect.number("returned")),
    };
    let mut buffer = hex::decode(vector.text("buffer"));
    let found = fill_proportional(vector.number("m"), vector.number("p"), &mut buffer);
    alike("returned", format!("{found:?}"), format!("{returned:?}"))?;
    alike("buffer", &hex::encode(&buffer)[..], expect.text("buffer"))
}

// ---- inverses

fn check_inverse(vector: &Json) -> Checked {
    let expect = vector.get("expect");
    let returned: Result<usize, Refusal> = match expect.has("refused") {
        true => Err(refusal(expect.get("refused"))),
        false => Ok(expect.number("returned")),
    };
    let list = hex::decode(vector.text("list"));
    let writers: [(&str, fn(&[u8], &mut [u8]) -> Result<usize, Refusal>); 2] =
        [("library", fill_inverse), ("dense program", dense::inverse::fill_inverse)];
    for (name, fill) in writers {
        let mut buffer = hex::decode(vector.text("buffer"));
        let found = fill(&list, &mut buffer);
        alike(&format!("{name}, returned"), format!("{found:?}"), format!("{returned:?}"))?;
        alike(&format!("{name}, buffer"), &hex::encode(&buffer)[..], expect.text("buffer"))?;
    }
    Ok(())
}

// ---- lines of the verdict program

fn check_line(vector: &Json, program: &Program) -> Checked {
    let input = hex::decode(vector.text("hex"));
    let line = vector.text("stdout");
    if program_lists_are_small(&input) {
        alike("dense program", &dense::verdict_line(&input)[..], line)?;
    }
    program.check(&input, line)
}

fn program_lists_are_small(input: &[u8]) -> bool {
    dense::split(input).map_or(true, |(list1, list2)| small(list1, list2))
}
