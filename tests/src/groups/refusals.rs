//! The call's own refusals (1, 2, 11, 12), alone and before others, and the limits of sizes.

use crate::call;
use crate::circuits::{list, random_circuit};
use crate::dense::{self, Call, Lengths, lengths, proportional};
use crate::random::Random;
use crate::tally::{Checked, Tally, alike};

pub fn run(tally: &mut Tally, seed: u64) {
    let good = good_call(seed);
    widths(tally, &good);
    column_lengths(tally, &good);
    sizes(tally, &good);
    schedules(tally, &good);
    orders(tally, &good);
}

fn good_call(seed: u64) -> Call {
    let mut random = Random::new(seed);
    let (u, v) = (random_circuit(&mut random, 2, 5), random_circuit(&mut random, 2, 7));
    Call {
        list1: list(&u),
        list2: list(&v),
        schedule: proportional(5, 7),
        w: 32,
        first: lengths(60, 40),
        second: lengths(60, 40),
    }
}

/// The dense program gives this number (0: not refused), and the library what the dense program gives.
fn refused(call: &Call, number: u32) -> Checked {
    let expected = dense::judge(call);
    let found = match expected.report.verdict {
        gannetrope::Verdict::Refused(refusal) => refusal.number(),
        _ => 0,
    };
    alike("number of the refusal", found, number)?;
    call::check(call, 77, &expected)
}

fn widths(tally: &mut Tally, good: &Call) {
    for (w, number) in [(0, 1), (1, 1), (32, 0), (33, 1), (64, 1), (256 + 32, 1), (65_536 + 32, 1), (u32::MAX, 1)] {
        tally.case(&format!("width {w}"), || refused(&Call { w, ..good.clone() }, number));
    }
}

fn column_lengths(tally: &mut Tally, good: &Call) {
    tally.case("columns that fit", || refused(good, 0));
    for column in 0..14 {
        for change in [-1isize, 1, -7] {
            let mut call = good.clone();
            let store: &mut Lengths = if column < 7 { &mut call.first } else { &mut call.second };
            store[column % 7] = store[column % 7].wrapping_add_signed(change);
            tally.case(&format!("column {column} longer by {change}"), || refused(&call, 2));
        }
    }
    let stores = [("more nodes", lengths(61, 40)), ("fewer nodes", lengths(59, 40)), ("more values", lengths(60, 41))];
    for (name, store) in stores {
        tally.case(&format!("first store has {name}"), || refused(&Call { first: store, ..good.clone() }, 2));
        tally.case(&format!("second store has {name}"), || refused(&Call { second: store, ..good.clone() }, 2));
    }
}

fn sizes(tally: &mut Tally, good: &Call) {
    let numbers = [
        (65_536, 65_536, 0),
        (65_536, 40, 0),
        (60, 65_536, 0),
        (4096, 4096, 0),
        (4097, 4096, 0),
        (4096, 4097, 0),
        (65_537, 40, 2),
        (60, 65_537, 2),
        (60, 0, 2),
        (0, 40, 14),
        (0, 1, 14),
        (60, 1, 14),
        (0, 0, 2),
    ];
    for (nodes, values, number) in numbers {
        let call = Call { first: lengths(nodes, values), second: lengths(nodes, values), ..good.clone() };
        tally.case(&format!("N = {nodes}, L = {values}"), || refused(&call, number));
    }
}

fn schedules(tally: &mut Tally, good: &Call) {
    let with = |change: fn(&mut Vec<u8>)| {
        let mut call = good.clone();
        change(&mut call.schedule);
        call
    };
    let cases: [(&str, Call); 8] = [
        ("empty", with(Vec::clear)),
        ("a step short", with(|schedule| schedule.truncate(11))),
        ("a 0 more", with(|schedule| schedule.push(0))),
        ("a 1 more", with(|schedule| schedule.push(1))),
        ("a 2 more", with(|schedule| schedule.push(2))),
        ("a 2 within", with(|schedule| schedule[3] = 2)),
        ("a 255 within", with(|schedule| schedule[0] = 255)),
        ("the sides changed", with(|schedule| schedule.iter_mut().for_each(|byte| *byte ^= 1))),
    ];
    for (name, call) in cases {
        tally.case(&format!("schedule with {name}"), || refused(&call, 12));
    }
}

/// Where several hold, the first of the paper's table is given.
fn orders(tally: &mut Tally, good: &Call) {
    let width = |call: Call| Call { w: 33, ..call };
    let columns = |call: Call| Call { second: lengths(60, 41), ..call };
    let bad_list1 = |call: Call| Call { list1: vec![0], ..call };
    let bad_list2 = |call: Call| Call { list2: vec![2, 0, 0], ..call };
    let other_count = |call: Call| Call { list2: vec![3, 0], ..call };
    let no_schedule = |call: Call| Call { schedule: vec![], ..call };
    let no_room = |call: Call| Call { first: lengths(0, 1), second: lengths(0, 1), ..call };

    let all = |call| no_schedule(bad_list2(bad_list1(columns(width(call)))));
    tally.case("1 before 2", || refused(&all(good.clone()), 1));
    tally.case("2 before 5", || refused(&no_schedule(bad_list2(bad_list1(columns(good.clone())))), 2));
    tally.case("5 in list 1 before 10 in list 2", || refused(&no_schedule(bad_list2(bad_list1(good.clone()))), 5));
    tally.case("10 before 12", || refused(&no_schedule(bad_list2(good.clone())), 10));
    tally.case("11 before 12", || refused(&no_room(no_schedule(other_count(good.clone()))), 11));
    tally.case("12 before 14", || refused(&no_room(no_schedule(good.clone())), 12));
}
