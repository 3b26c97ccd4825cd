//! Gate lists and their form as bytes.

use gannetrope::MOST_GATES;

/// The most qubits that a list may have.
pub const MOST_QUBITS: u8 = 16;

/// How many bits of a number a byte holds.
const GROUP_BITS: usize = 7;

/// How many bytes a number may take.
const MOST_GROUPS: usize = 3;

/// The bit of a byte that says that the number goes on.
const MORE: u8 = 0x80;

/// What a gate does, by its code.
#[derive(Clone, Copy, PartialEq, Eq, Debug)]
#[repr(u8)]
pub enum Code {
    X,
    Y,
    Z,
    H,
    S,
    Sdg,
    T,
    Tdg,
    Cnot,
    Cz,
    Toffoli,
    Fredkin,
}

impl Code {
    pub const ALL: [Code; 12] = [
        Code::X,
        Code::Y,
        Code::Z,
        Code::H,
        Code::S,
        Code::Sdg,
        Code::T,
        Code::Tdg,
        Code::Cnot,
        Code::Cz,
        Code::Toffoli,
        Code::Fredkin,
    ];

    /// The codes without a mask of controls.
    pub const UNMASKED: &'static [Code] = Code::ALL.split_at(Code::Toffoli as usize).0;

    /// The same and the Toffoli gate's.
    pub const ALL_BUT_FREDKIN: &'static [Code] = Code::ALL.split_at(Code::Fredkin as usize).0;

    /// How many controls a gate of this code has at least.
    pub fn least_controls(self) -> u32 {
        match self {
            Code::Toffoli => 2,
            Code::Fredkin | Code::Cnot | Code::Cz => 1,
            _ => 0,
        }
    }

    /// How many targets a gate of this code has.
    pub fn targets(self) -> usize {
        if self == Code::Fredkin { 2 } else { 1 }
    }

    pub fn inverse(self) -> Code {
        match self {
            Code::S => Code::Sdg,
            Code::Sdg => Code::S,
            Code::T => Code::Tdg,
            Code::Tdg => Code::T,
            other => other,
        }
    }
}

/// The mask of one qubit: bit q names qubit q.
pub const fn bit(qubit: u8) -> u32 {
    1 << qubit
}

/// The mask of several qubits.
pub fn mask(qubits: &[u8]) -> u32 {
    qubits.iter().map(|&qubit| bit(qubit)).sum()
}

#[derive(Clone, Copy, PartialEq, Eq, Debug)]
pub struct Gate {
    pub code: Code,
    /// The mask of the controls.
    pub controls: u32,
    pub target: u8,
    /// The qubit that the target is swapped with.
    pub second: Option<u8>,
}

impl Gate {
    pub const fn one(code: Code, target: u8) -> Gate {
        Gate { code, controls: 0, target, second: None }
    }

    pub const fn two(code: Code, control: u8, target: u8) -> Gate {
        Gate { code, controls: bit(control), target, second: None }
    }

    pub const fn toffoli(controls: u32, target: u8) -> Gate {
        Gate { code: Code::Toffoli, controls, target, second: None }
    }

    pub const fn fredkin(controls: u32, (target, second): (u8, u8)) -> Gate {
        Gate { code: Code::Fredkin, controls, target, second: Some(second) }
    }

    /// The gate that undoes this one.
    pub fn inverse(self) -> Gate {
        Gate { code: self.code.inverse(), ..self }
    }

    /// The first of the controls.
    pub fn control(self) -> u8 {
        self.controls.trailing_zeros() as u8
    }

    fn targets(self) -> u32 {
        bit(self.target) | self.second.map_or(0, bit)
    }

    /// The mask of all qubits that the gate names.
    pub fn named(self) -> u32 {
        self.controls | self.targets()
    }

    /// Whether the two gates name no common qubit, so that their order does not matter.
    pub fn is_apart_from(self, other: Gate) -> bool {
        self.named() & other.named() == 0
    }

    /// Whether no qubit is named twice and the controls are enough.
    fn is_well_formed(self) -> bool {
        self.second != Some(self.target)
            && self.controls & self.targets() == 0
            && self.controls.count_ones() >= self.code.least_controls()
    }

    fn encode(self, bytes: &mut Vec<u8>) {
        put_number(self.code as usize, bytes);
        match self.code {
            Code::Cnot | Code::Cz => put_number(usize::from(self.control()), bytes),
            Code::Toffoli | Code::Fredkin => put_number(self.controls as usize, bytes),
            _ => (),
        }
        put_number(usize::from(self.target), bytes);
        if let Some(second) = self.second {
            put_number(usize::from(second), bytes);
        }
    }
}

#[derive(Clone, PartialEq, Eq, Debug)]
pub struct Circuit {
    pub qubits: u8,
    pub gates: Vec<Gate>,
}

impl Circuit {
    pub fn count(&self, code: Code) -> usize {
        self.gates.iter().filter(|gate| gate.code == code).count()
    }

    pub fn encode(&self) -> Vec<u8> {
        let mut bytes = Vec::new();
        put_number(usize::from(self.qubits), &mut bytes);
        put_number(self.gates.len(), &mut bytes);
        for gate in &self.gates {
            gate.encode(&mut bytes);
        }
        bytes
    }

    /// The list that the bytes write down; `None` if they are not one.
    pub fn decode(bytes: &[u8]) -> Option<Circuit> {
        let mut reader = Reader { bytes };
        let qubits = u8::try_from(reader.number()?).ok()?;
        let count = reader.number()?;
        if !(1..=MOST_QUBITS).contains(&qubits) || count > MOST_GATES as usize {
            return None;
        }
        let gates = (0..count).map(|_| reader.gate(qubits)).collect::<Option<Vec<Gate>>>()?;
        reader.bytes.is_empty().then_some(Circuit { qubits, gates })
    }
}

/// A pair's two lists as the verdict program reads them: the first one's length, then both.
pub fn join_lists(first: &[u8], second: &[u8]) -> Vec<u8> {
    let mut bytes = Vec::new();
    put_number(first.len(), &mut bytes);
    bytes.extend_from_slice(first);
    bytes.extend_from_slice(second);
    bytes
}

/// The two lists of such an input.
pub fn split_lists(input: &[u8]) -> Option<(&[u8], &[u8])> {
    let mut reader = Reader { bytes: input };
    let length = reader.number()?;
    reader.bytes.split_at_checked(length)
}

fn put_number(mut number: usize, bytes: &mut Vec<u8>) {
    while number >> GROUP_BITS != 0 {
        bytes.push(number as u8 | MORE);
        number >>= GROUP_BITS;
    }
    bytes.push(number as u8);
}

/// The bytes that are still to be read.
struct Reader<'a> {
    bytes: &'a [u8],
}

impl Reader<'_> {
    fn number(&mut self) -> Option<usize> {
        let mut number = 0;
        for group in 0..MOST_GROUPS {
            let (&byte, rest) = self.bytes.split_first()?;
            self.bytes = rest;
            number |= usize::from(byte & !MORE) << (GROUP_BITS * group);
            if byte & MORE == 0 {
                return Some(number);
            }
        }
        None
    }

    fn gate(&mut self, qubits: u8) -> Option<Gate> {
        let code = *Code::ALL.get(self.number()?)?;
        let controls = match code {
            Code::Cnot | Code::Cz => bit(self.qubit(qubits)?),
            Code::Toffoli | Code::Fredkin => self.mask(qubits)?,
            _ => 0,
        };
        let target = self.qubit(qubits)?;
        let second = if code == Code::Fredkin { Some(self.qubit(qubits)?) } else { None };
        let gate = Gate { code, controls, target, second };
        gate.is_well_formed().then_some(gate)
    }

    fn mask(&mut self, qubits: u8) -> Option<u32> {
        let mask = u32::try_from(self.number()?).ok()?;
        (mask < bit(qubits)).then_some(mask)
    }

    fn qubit(&mut self, qubits: u8) -> Option<u8> {
        let qubit = u8::try_from(self.number()?).ok()?;
        (qubit < qubits).then_some(qubit)
    }
}

#[cfg(test)]
mod tests {
    use super::*;

    #[test]
    fn a_list_reads_back() {
        let circuit = Circuit {
            qubits: 3,
            gates: vec![Gate::one(Code::H, 0), Gate::two(Code::Cnot, 0, 2), Gate::one(Code::Tdg, 1)],
        };
        assert_eq!(circuit.encode(), [3, 3, 3, 0, 8, 0, 2, 7, 1]);
        assert_eq!(Circuit::decode(&circuit.encode()), Some(circuit));
    }

    #[test]
    fn long_numbers_take_several_groups() {
        let mut bytes = Vec::new();
        put_number(4096, &mut bytes);
        assert_eq!(bytes, [128, 32]);
        assert_eq!(Reader { bytes: &bytes }.number(), Some(4096));
    }

    #[test]
    fn masks_read_back() {
        let gates = vec![Gate::toffoli(0b1_0000_0001, 2), Gate::fredkin(0b10, (8, 0))];
        let circuit = Circuit { qubits: 9, gates };
        assert_eq!(circuit.encode(), [9, 2, 10, 129, 2, 2, 11, 2, 8, 0]);
        assert_eq!(Circuit::decode(&circuit.encode()), Some(circuit));
    }

    #[test]
    fn an_unknown_code_is_no_list() {
        assert_eq!(Circuit::decode(&[3, 1, 12, 3, 2]), None);
    }

    #[test]
    fn a_mask_with_too_few_or_unfit_qubits_is_no_list() {
        for gate in [&[10, 1, 2][..], &[10, 9, 2], &[10, 3, 1], &[11, 0, 1, 2], &[11, 1, 2, 2], &[11, 1, 0, 2]] {
            let list = [&[3, 1], gate].concat();
            assert_eq!(Circuit::decode(&list), None, "{gate:?}");
        }
    }

    #[test]
    fn joined_lists_split_again() {
        assert_eq!(join_lists(&[1, 0], &[1, 0]), [2, 1, 0, 1, 0]);
        assert_eq!(split_lists(&[2, 1, 0, 1, 0]), Some((&[1, 0][..], &[1, 0][..])));
        assert_eq!(split_lists(&[9, 1, 0]), None);
    }
}
