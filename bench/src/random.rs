//! Random numbers by seed (SplitMix64), so that every run has the same circuits.

pub struct Random(u64);

impl Random {
    pub fn new(seed: u64) -> Self {
        Random(seed)
    }

    fn next(&mut self) -> u64 {
        self.0 = self.0.wrapping_add(0x9E37_79B9_7F4A_7C15);
        let mut z = self.0;
        z = (z ^ (z >> 30)).wrapping_mul(0xBF58_476D_1CE4_E5B9);
        z = (z ^ (z >> 27)).wrapping_mul(0x94D0_49BB_1331_11EB);
        z ^ (z >> 31)
    }

    /// A number below `bound`, which is small: the bias does not matter here.
    pub fn below(&mut self, bound: usize) -> usize {
        (self.next() % bound as u64) as usize
    }

    pub fn percent(&mut self, chance: usize) -> bool {
        self.below(100) < chance
    }

    pub fn pick<T: Copy>(&mut self, items: &[T]) -> T {
        items[self.below(items.len())]
    }

    pub fn qubit(&mut self, qubits: u8) -> u8 {
        self.below(usize::from(qubits)) as u8
    }

    /// Two qubits that are not the same one.
    pub fn two_qubits(&mut self, qubits: u8) -> (u8, u8) {
        let first = self.qubit(qubits);
        let second = self.qubit(qubits - 1);
        (first, if second < first { second } else { second + 1 })
    }

    /// So many different qubits, in any order.
    pub fn some_qubits(&mut self, qubits: u8, count: usize) -> Vec<u8> {
        let mut left: Vec<u8> = (0..qubits).collect();
        (0..count).map(|_| left.swap_remove(self.below(left.len()))).collect()
    }
}
