//! Random numbers that are the same in every run, and what the tests make of them.

use egl::{Builder, Circuit, Kind, Noise, OwnedCloudKey, Params, SecretKeys};

/// A generator with a fixed seed (splitmix64). It is no source for keys that matter.
pub struct Seeded(pub u64);

impl Seeded {
    pub fn next(&mut self) -> u64 {
        self.0 = self.0.wrapping_add(0x9E37_79B9_7F4A_7C15);
        let mut z = self.0;
        z = (z ^ (z >> 30)).wrapping_mul(0xBF58_476D_1CE4_E5B9);
        z = (z ^ (z >> 27)).wrapping_mul(0x94D0_49BB_1331_11EB);
        z ^ (z >> 31)
    }

    pub fn below(&mut self, limit: usize) -> usize {
        (self.next() % limit as u64) as usize
    }

    pub fn bits(&mut self, count: usize) -> Vec<bool> {
        (0..count).map(|_| self.next() & 1 != 0).collect()
    }

    /// As the wrapper takes a source: a closure.
    pub fn source(&mut self) -> impl FnMut(&mut [u8]) + '_ {
        move |bytes| bytes.chunks_mut(8).for_each(|part| part.copy_from_slice(&self.next().to_le_bytes()[..part.len()]))
    }
}

/// A set so small that a gate takes milliseconds under an emulator too, and whose rounding stays far inside an eighth of a turn.
pub const TINY: Params = Params::new(8, 5, 7, 4, 3, 5);
/// n of that set.
pub const MASKS: usize = 8;
/// n + 1 of that set.
pub const CIPHERTEXT: usize = 9;
/// N of that set.
pub const POLYNOMIAL: usize = 32;
/// A set outside the ranges.
pub const OUTSIDE: Params = Params::new(0, 5, 7, 4, 3, 5);

/// A little noise, about a dozen words.
pub fn little() -> Noise {
    Noise::new(3.0e-9, 3.0e-9).unwrap()
}

/// Fresh keys at that set.
pub fn keys(seed: u64) -> (SecretKeys, OwnedCloudKey) {
    keys_at(TINY, seed)
}

/// Fresh keys at any set.
pub fn keys_at(params: Params, seed: u64) -> (SecretKeys, OwnedCloudKey) {
    let mut seeded = Seeded(seed);
    let secret = SecretKeys::draw(params, &mut seeded.source()).unwrap();
    let cloud = OwnedCloudKey::draw(&secret, little(), &mut seeded.source()).unwrap();
    (secret, cloud)
}

/// A gate of a circuit as the tests know it.
pub type Listed = (Kind, [usize; 3]);

/// A random circuit, and its gates with their operands' wire numbers.
pub fn circuit(seeded: &mut Seeded, inputs: usize, gates: usize, outputs: usize) -> (Circuit, Vec<Listed>, Vec<usize>) {
    let mut builder = Builder::new(inputs);
    let mut wires: Vec<_> = (0..inputs).map(|i| builder.input(i)).collect();
    let mut listed = Vec::new();
    for _ in 0..gates {
        let kind = Kind::ALL[if wires.is_empty() { seeded.below(2) } else { seeded.below(14) }];
        let mut operands = [0; 3];
        operands.iter_mut().take(kind.operands()).for_each(|wire| *wire = seeded.below(wires.len()));
        let lent: Vec<_> = operands.iter().take(kind.operands()).map(|wire| wires[*wire]).collect();
        wires.push(builder.gate(kind, &lent));
        listed.push((kind, operands));
    }
    let outs: Vec<usize> = (0..outputs).map(|_| seeded.below(wires.len())).collect();
    outs.iter().for_each(|wire| builder.output(wires[*wire]));
    (builder.build().unwrap(), listed, outs)
}

/// The circuit's outputs by the kinds' meanings, worked out here.
pub fn expected(listed: &[Listed], outs: &[usize], ins: &[bool]) -> Vec<bool> {
    let mut wires = ins.to_vec();
    for (kind, [a, b, c]) in listed {
        let bit = |wire: &usize| wires.get(*wire).copied().unwrap_or(false);
        let value = kind.meaning(bit(a), bit(b), bit(c));
        wires.push(value);
    }
    outs.iter().map(|wire| wires[*wire]).collect()
}
