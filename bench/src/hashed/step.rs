//! One step: the product of a diagram and a gate, by a walk that goes low before high.

use super::diagram::{Builder, Diagram, PAST_ALL, Reference};
use super::entries::{narrow, times_w8, wide};
use crate::circuit::{Code, Gate, MOST_QUBITS, bit};
use std::collections::HashMap;
use std::ops::RangeInclusive;

/// Where a gate comes into the product.
#[derive(Clone, Copy, PartialEq, Eq)]
pub enum Side {
    /// The gate itself on the left: it acts on the row bits.
    Left,
    /// Its inverse on the right: it acts on the column bits.
    Right,
}

/// A gate as data: where it asks, and what it does at its targets.
pub struct Action {
    /// The levels of controls and targets, as they come.
    sites: Vec<Site>,
    effect: Effect,
}

#[derive(Clone, Copy)]
struct Site {
    level: u32,
    is_target: bool,
}

#[derive(Clone, Copy)]
enum Effect {
    /// The sum of the two cofactors at bit 0, their difference at bit 1.
    Mix,
    /// The cofactor of the bit, or of the other bit, times w8 to the power that stands for the bit.
    Turn { flips: bool, powers: [u8; 2] },
    /// The cofactor of the two targets' bits in exchanged places.
    Swap,
}

impl Action {
    pub fn new(gate: Gate, side: Side) -> Action {
        let site = |qubit: u8| Site {
            level: 2 * u32::from(qubit) + u32::from(side == Side::Right),
            is_target: gate.controls & bit(qubit) == 0,
        };
        let sites = (0..MOST_QUBITS).filter(|&qubit| gate.named() & bit(qubit) != 0).map(site).collect();
        let code = match side {
            Side::Left => gate.code,
            Side::Right => gate.code.inverse(),
        };
        Action { sites, effect: effect(code, side) }
    }
}

fn effect(code: Code, side: Side) -> Effect {
    let diagonal = |power| Effect::Turn { flips: false, powers: [0, power] };
    let flip = |powers| Effect::Turn { flips: true, powers };
    match code {
        Code::X | Code::Cnot | Code::Toffoli => flip([0, 0]),
        Code::Y => flip(match side {
            Side::Left => [6, 2],
            Side::Right => [2, 6],
        }),
        Code::Z | Code::Cz => diagonal(4),
        Code::S => diagonal(2),
        Code::Sdg => diagonal(6),
        Code::T => diagonal(1),
        Code::Tdg => diagonal(7),
        Code::H => Effect::Mix,
        Code::Fredkin => Effect::Swap,
    }
}

/// A state of the walk: two references into the source, and what is to be made of them.
#[derive(Clone, Copy, PartialEq, Eq, Hash)]
pub struct State {
    x: Reference,
    y: Reference,
    mode: Mode,
}

#[derive(Clone, Copy, PartialEq, Eq, Hash)]
enum Mode {
    /// The gate's sites from this one on are still to come: if every control among them is 1, y acted on and turned;
    /// else x.
    Acting { site: u8, power: u8 },
    /// The same of a swap between its targets, the first of which had this bit in x and the other one in y.
    Swapping { site: u8, seen: bool },
    /// y times a power of w8; x is y.
    Turned { power: u8 },
    /// x + y.
    Plus,
    /// x - y.
    Minus,
}

pub type ComputedTable = HashMap<State, Reference>;

/// Builds the product in an empty builder. Gives whether every number of it lies within the width.
pub fn multiply(
    action: &Action,
    source: &Diagram,
    width: u32,
    computed: &mut ComputedTable,
    builder: &mut Builder,
) -> bool {
    computed.clear();
    let half = 1i64 << (width - 1);
    let mut walk = Walk { action, source, range: -half..=half - 1, computed, builder, inside: true };
    let root = walk.answer(State { x: source.root, y: source.root, mode: Mode::Acting { site: 0, power: 0 } });
    walk.builder.diagram.root = root;
    walk.inside
}

struct Walk<'a> {
    action: &'a Action,
    source: &'a Diagram,
    range: RangeInclusive<i64>,
    computed: &'a mut ComputedTable,
    builder: &'a mut Builder,
    /// Whether every number so far lies within the width.
    inside: bool,
}

impl Walk<'_> {
    fn answer(&mut self, state: State) -> Reference {
        let level = self.level(state);
        if level == PAST_ALL {
            return self.settle(state);
        }
        if let Some(&known) = self.computed.get(&state) {
            return known;
        }
        let low = self.answer(self.next(state, level, false));
        let high = self.answer(self.next(state, level, true));
        let answer = self.builder.node(level, low, high);
        self.computed.insert(state, answer);
        answer
    }

    /// The first level that a reference or the gate asks about.
    fn level(&self, state: State) -> u32 {
        let of_gate = match state.mode {
            Mode::Acting { site, .. } | Mode::Swapping { site, .. } => self.action.sites[usize::from(site)].level,
            _ => PAST_ALL,
        };
        let of_references = self.source.level(state.x).min(self.source.level(state.y));
        of_gate.min(of_references)
    }

    /// What a state becomes by the bit of the level that it asks about.
    fn next(&self, state: State, level: u32, bit: bool) -> State {
        let x = self.source.cofactor(state.x, level, bit);
        let y = self.source.cofactor(state.y, level, bit);
        let mode = state.mode;
        let (Mode::Acting { site, .. } | Mode::Swapping { site, .. }) = mode else {
            return State { x, y, mode };
        };
        let here = self.action.sites[usize::from(site)];
        if here.level != level {
            return State { x, y, mode };
        }
        if here.is_target {
            return self.next_at_target(state, x, level, bit);
        }
        match bit {
            false => turned(x, 0),
            true => self.past_site(x, y, mode),
        }
    }

    fn next_at_target(&self, state: State, x: Reference, level: u32, bit: bool) -> State {
        let y_at = |bit| self.source.cofactor(state.y, level, bit);
        match (self.action.effect, state.mode) {
            (Effect::Turn { flips, powers }, Mode::Acting { site, power }) => {
                let power = (power + powers[usize::from(bit)]) % 8;
                self.past_site(x, y_at(bit ^ flips), Mode::Acting { site, power })
            }
            (Effect::Swap, Mode::Acting { site, .. }) => {
                self.past_site(x, y_at(!bit), Mode::Swapping { site, seen: bit })
            }
            (Effect::Swap, Mode::Swapping { seen, .. }) if seen == bit => turned(x, 0),
            (Effect::Swap, Mode::Swapping { site, seen }) => {
                self.past_site(x, y_at(seen), Mode::Acting { site, power: 0 })
            }
            _ => State { x: y_at(false), y: y_at(true), mode: if bit { Mode::Minus } else { Mode::Plus } },
        }
    }

    /// The state after the site of its mode.
    fn past_site(&self, x: Reference, y: Reference, mode: Mode) -> State {
        match mode {
            Mode::Acting { site, power } if usize::from(site) + 1 == self.action.sites.len() => turned(y, power),
            Mode::Acting { site, power } => State { x, y, mode: Mode::Acting { site: site + 1, power } },
            Mode::Swapping { site, seen } => State { x, y, mode: Mode::Swapping { site: site + 1, seen } },
            _ => unreachable!("the gate has acted"),
        }
    }

    /// The value of a state with no question left; outside the width it is noted, and does not matter.
    fn settle(&mut self, state: State) -> Reference {
        let x = wide(self.source.value(state.x));
        let y = wide(self.source.value(state.y));
        let numbers = match state.mode {
            Mode::Plus => std::array::from_fn(|i| x[i] + y[i]),
            Mode::Minus => std::array::from_fn(|i| x[i] - y[i]),
            Mode::Turned { power } => times_w8(y, power),
            Mode::Acting { .. } | Mode::Swapping { .. } => unreachable!("the gate still asks"),
        };
        if numbers.iter().any(|number| !self.range.contains(number)) {
            self.inside = false;
        }
        self.builder.value(narrow(numbers))
    }
}

fn turned(reference: Reference, power: u8) -> State {
    State { x: reference, y: reference, mode: Mode::Turned { power } }
}
