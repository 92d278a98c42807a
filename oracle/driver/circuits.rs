//! Circuits: an independent reader and plain evaluator, and circuits to try, valid or damaged.

use crate::source::Source;

/// So many kinds of gates there are.
pub const KINDS: u64 = 14;

/// Operands that each kind needs, and its value on bits.
pub const NEEDS: [usize; 14] = [0, 0, 1, 2, 2, 2, 2, 2, 2, 2, 2, 2, 2, 3];

pub fn value(kind: usize, a: bool, b: bool, c: bool) -> bool {
    match kind {
        0 => false,
        1 => true,
        2 => !a,
        3 => a && b,
        4 => a || b,
        5 => !(a && b),
        6 => !(a || b),
        7 => a != b,
        8 => a == b,
        9 => !a && b,
        10 => a && !b,
        11 => !a || b,
        12 => a || !b,
        _ => if a { b } else { c },
    }
}

pub struct Circuit {
    pub inputs: usize,
    /// Kind and operands; those that the kind does not need are 0.
    pub gates: Vec<(usize, [usize; 3])>,
    pub outputs: Vec<usize>,
}

impl Circuit {
    pub fn wires(&self) -> usize {
        self.inputs + self.gates.len()
    }
}

/// Reads a circuit, or gives the number and the place of its first fault.
pub fn read(bytes: &[u8]) -> Result<Circuit, (u64, usize)> {
    if bytes.len() < 11 {
        return Err((8, 0));
    }
    if bytes[..3] != *b"EGL" {
        return Err((6, 0));
    }
    let field = |at: usize| bytes[at] as usize + 256 * bytes[at + 1] as usize;
    if field(3) != 1 {
        return Err((7, 3));
    }
    let (inputs, gates, outputs) = (field(5), field(7), field(9));
    if inputs > 256 {
        return Err((8, 5));
    }
    if gates > 1024 {
        return Err((8, 7));
    }
    if !(1..=64).contains(&outputs) {
        return Err((8, 9));
    }
    if bytes.len() != 11 + 8 * gates + 2 * outputs {
        return Err((8, 11));
    }
    let mut out = Circuit { inputs, gates: Vec::new(), outputs: Vec::new() };
    for g in 0..gates {
        let at = 11 + 8 * g;
        let kind = bytes[at] as usize;
        if kind > 13 {
            return Err((9, at));
        }
        if bytes[at + 1] != 0 {
            return Err((9, at + 1));
        }
        let operands = [field(at + 2), field(at + 4), field(at + 6)];
        for (i, &wire) in operands.iter().enumerate() {
            let fits = if i < NEEDS[kind] { wire < inputs + g } else { wire == 0 };
            if !fits {
                return Err((9, at + 2 + 2 * i));
            }
        }
        out.gates.push((kind, operands));
    }
    for o in 0..outputs {
        let at = 11 + 8 * gates + 2 * o;
        if field(at) >= inputs + gates {
            return Err((10, at));
        }
        out.outputs.push(field(at));
    }
    Ok(out)
}

/// The bit of every wire.
pub fn plain_wires(c: &Circuit, inputs: &[u8]) -> Vec<bool> {
    let mut wires: Vec<bool> = inputs.iter().map(|&b| b != 0).collect();
    for (kind, [a, b, d]) in &c.gates {
        let bit = |w: usize| wires.get(w).copied().unwrap_or(false);
        let v = value(*kind, bit(*a), bit(*b), bit(*d));
        wires.push(v);
    }
    wires
}

pub fn run_plain(c: &Circuit, inputs: &[u8]) -> Vec<u8> {
    let wires = plain_wires(c, inputs);
    c.outputs.iter().map(|&w| wires[w] as u8).collect()
}

/// A valid circuit (unless it has no wire at all), its kinds below `kinds`.
pub fn valid(source: &mut Source, kinds: u64, inputs: usize, gates: usize, outputs: usize) -> Vec<u8> {
    let mut bytes = b"EGL".to_vec();
    let put = |bytes: &mut Vec<u8>, x: usize| bytes.extend((x as u16).to_le_bytes());
    [1, inputs, gates, outputs].iter().for_each(|x| put(&mut bytes, *x));
    for g in 0..gates {
        let wires = inputs + g;
        let kind = if wires == 0 { source.below(2) } else { source.below(kinds) } as usize;
        put(&mut bytes, kind);
        for i in 0..3 {
            put(&mut bytes, if i < NEEDS[kind] { source.below(wires as u64) as usize } else { 0 });
        }
    }
    for _ in 0..outputs {
        put(&mut bytes, source.below((inputs + gates).max(1) as u64) as usize);
    }
    bytes
}

/// One or two bytes changed, now and then the end cut off or zeros behind it: mostly refused afterwards.
pub fn damage(source: &mut Source, bytes: &mut Vec<u8>) {
    if bytes.is_empty() {
        return;
    }
    for _ in 0..1 + source.below(2) {
        let at = source.below(bytes.len() as u64) as usize;
        bytes[at] = if source.below(2) == 0 { source.below(16) as u8 } else { source.next() as u8 };
    }
    match source.below(8) {
        0 => bytes.truncate(source.below(bytes.len() as u64 + 1) as usize),
        1 => bytes.extend((0..1 + source.below(9)).map(|_| 0)),
        _ => {}
    }
}
