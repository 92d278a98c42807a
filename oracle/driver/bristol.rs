//! Circuits in the Bristol Fashion text form: an independent reader, what a text means on bits, the circuit that import has to make of it, and the text that
//! export has to make of a circuit.

use crate::circuits::{Circuit, NEEDS};
use std::collections::{HashMap, HashSet};

#[derive(Clone, Copy, PartialEq)]
pub enum Name {
    Xor,
    And,
    Inv,
    /// With its constant.
    Eq(bool),
    Eqw,
    Mand,
}

pub struct Gate {
    pub name: Name,
    pub operands: Vec<u64>,
    pub results: Vec<u64>,
}

/// A text that is in the form.
pub struct Text {
    pub wires: u64,
    pub inputs: u64,
    pub outputs: u64,
    pub gates: Vec<Gate>,
    /// Where it first passes a limit of document 01, or uses MAND: refused with 12 there.
    pub beyond: Option<usize>,
}

/// The largest counts of a circuit.
pub const INPUTS: u64 = 256;
pub const GATES: usize = 1024;
pub const OUTPUTS: u64 = 64;

fn blank(byte: u8) -> bool {
    matches!(byte, b' ' | b'\t' | b'\r' | b'\n')
}

struct Tokens<'a> {
    text: &'a [u8],
    at: usize,
}

impl<'a> Tokens<'a> {
    /// The next token and its place; none where the text ends.
    fn next(&mut self) -> Option<(usize, &'a [u8])> {
        let text = self.text;
        let start = self.at + text[self.at..].iter().take_while(|byte| blank(**byte)).count();
        let token = &text[start..][..text[start..].iter().take_while(|byte| !blank(**byte)).count()];
        self.at = start + token.len();
        (!token.is_empty()).then_some((start, token))
    }

    /// The next token where one is due.
    fn due(&mut self) -> Result<(usize, &'a [u8]), usize> {
        let end = self.text.len();
        self.next().ok_or(end)
    }

    /// The next token where a number is due: digits, worth less than 2^32.
    fn number(&mut self) -> Result<(usize, u64), usize> {
        let (at, token) = self.due()?;
        let digits = token.iter().map(|byte| byte.is_ascii_digit().then(|| (byte - b'0') as u64));
        let value = digits.fold(Some(0u64), |sum, digit| sum?.checked_mul(10)?.checked_add(digit?));
        value.filter(|value| *value < 1 << 32).map(|value| (at, value)).ok_or(at)
    }

    /// Sizes with their number in front of them. Gives their sum, the place of the last of these tokens, and where the sum first passed the limit; no sum may pass `most`.
    fn sizes(&mut self, most: u64, limit: u64) -> Result<(u64, usize, Option<usize>), usize> {
        let (mut last, count) = self.number()?;
        let (mut sum, mut beyond) = (0, None);
        for _ in 0..count {
            let (at, size) = self.number()?;
            sum += size;
            last = at;
            if sum > most {
                return Err(at);
            }
            if sum > limit {
                beyond.get_or_insert(at);
            }
        }
        Ok((sum, last, beyond))
    }
}

/// The wires that are set: the inputs, and the results so far.
struct Wires {
    inputs: u64,
    results: HashSet<u64>,
}

impl Wires {
    fn set(&self, wire: u64) -> bool {
        wire < self.inputs || self.results.contains(&wire)
    }

    fn count(&self) -> u64 {
        self.inputs + self.results.len() as u64
    }
}

/// One gate, with so many gates after it; its name's place too.
fn gate(tokens: &mut Tokens, set: &mut Wires, wires: u64, later: u64) -> Result<(Gate, usize), usize> {
    let (at, k) = tokens.number()?;
    if k == 0 || k > 1 && k % 2 != 0 {
        return Err(at);
    }
    let (r, unset) = (k.div_ceil(2), wires - set.count());
    if r + later > unset || later == 0 && r != unset || k > 1 && set.count() == 0 {
        return Err(at);
    }
    let (at, told) = tokens.number()?;
    if told != r {
        return Err(at);
    }
    let (mut operands, mut results) = (Vec::new(), Vec::new());
    for _ in 0..k {
        let (at, wire) = tokens.number()?;
        if !set.set(wire) && !(k == 1 && wire < 2) {
            return Err(at);
        }
        operands.push(wire);
    }
    // told before the result is set: it may be the very wire that the operand would have to be
    let (a_wire, constant) = (set.set(operands[0]), operands[0] < 2);
    for _ in 0..r {
        let (at, wire) = tokens.number()?;
        if wire >= wires || set.set(wire) {
            return Err(at);
        }
        set.results.insert(wire);
        results.push(wire);
    }
    let (at, name) = tokens.due()?;
    let name = match (k, name) {
        (1, b"INV") if a_wire => Name::Inv,
        (1, b"EQW") if a_wire => Name::Eqw,
        (1, b"EQ") if constant => Name::Eq(operands[0] == 1),
        (2, b"XOR") => Name::Xor,
        (2, b"AND") => Name::And,
        (2.., b"MAND") => Name::Mand,
        _ => return Err(at),
    };
    Ok((Gate { name, operands, results }, at))
}

/// Reads a text, or gives the place at which it is seen not to be in the form.
pub fn read(text: &[u8]) -> Result<Text, usize> {
    let mut tokens = Tokens { text, at: 0 };
    let (_, count) = tokens.number()?;
    let (at, wires) = tokens.number()?;
    if wires < count {
        return Err(at);
    }
    let (inputs, last, many_inputs) = tokens.sizes(wires - count, INPUTS)?;
    if count == 0 && inputs != wires {
        return Err(last);
    }
    let (outputs, last, many_outputs) = tokens.sizes(wires, OUTPUTS)?;
    let mut beyond = many_inputs.or(many_outputs).or((outputs == 0).then_some(last));
    let mut set = Wires { inputs, results: HashSet::new() };
    let (mut gates, mut made) = (Vec::new(), 0);
    for g in 0..count {
        let (gate, at) = gate(&mut tokens, &mut set, wires, count - 1 - g)?;
        made += (gate.name != Name::Eqw) as usize;
        if gate.name == Name::Mand || made > GATES {
            beyond.get_or_insert(at);
        }
        gates.push(gate);
    }
    match tokens.next() {
        Some((at, _)) => Err(at),
        None => Ok(Text { wires, inputs, outputs, gates, beyond }),
    }
}

impl Text {
    /// The output wires: the last ones.
    fn last(&self) -> std::ops::Range<u64> {
        self.wires - self.outputs..self.wires
    }

    /// What the text means on these bits: the outputs' bits. A gate of MAND is an AND of each operand in the first half with its fellow in the second.
    pub fn meaning(&self, inputs: &[bool]) -> Vec<u8> {
        let mut bits: HashMap<u64, bool> = (0..).zip(inputs.iter().copied()).collect();
        for Gate { name, operands, results } in &self.gates {
            for (i, result) in results.iter().enumerate() {
                let operand = |k: usize| bits[&operands[k]];
                let bit = match name {
                    Name::Xor => operand(0) != operand(1),
                    Name::And => operand(0) && operand(1),
                    Name::Inv => !operand(0),
                    Name::Eq(constant) => *constant,
                    Name::Eqw => operand(0),
                    Name::Mand => operand(i) && operand(results.len() + i),
                };
                bits.insert(*result, bit);
            }
        }
        self.last().map(|wire| bits[&wire] as u8).collect()
    }

    /// The circuit in our form: a gate for each but EQW, whose result is its operand's wire.
    pub fn circuit(&self) -> Vec<u8> {
        let mut ours: HashMap<u64, u64> = (0..self.inputs).map(|wire| (wire, wire)).collect();
        let (mut gates, mut made) = (Vec::new(), 0);
        for Gate { name, operands, results } in &self.gates {
            let kind = match name {
                Name::Eq(constant) => *constant as u64,
                Name::Inv => 2,
                Name::And => 3,
                Name::Xor => 7,
                Name::Eqw => {
                    ours.insert(results[0], ours[&operands[0]]);
                    continue;
                }
                Name::Mand => panic!("MAND makes no circuit"),
            };
            gates.push(kind);
            gates.extend((0..3).map(|i| if i < NEEDS[kind as usize] { ours[&operands[i]] } else { 0 }));
            ours.insert(results[0], self.inputs + made);
            made += 1;
        }
        let head = [1, self.inputs, made, self.outputs];
        let fields = head.into_iter().chain(gates).chain(self.last().map(|wire| ours[&wire]));
        b"EGL".iter().copied().chain(fields.flat_map(|field| (field as u16).to_le_bytes())).collect()
    }
}

/// What an operand of an exported line is: one of the gate's own operands, a wire that an earlier line of the same gate set, or EQ's constant.
#[derive(Clone, Copy)]
enum Of {
    Own(usize),
    Line(usize),
    Bit(usize),
}

const A: Of = Of::Own(0);
const B: Of = Of::Own(1);
const C: Of = Of::Own(2);
const N: Of = Of::Line(0);
const M: Of = Of::Line(1);

/// The lines that stand for a gate of each kind.
const LINES: [&[(&str, &[Of])]; 14] = [
    &[("EQ", &[Of::Bit(0)])],
    &[("EQ", &[Of::Bit(1)])],
    &[("INV", &[A])],
    &[("AND", &[A, B])],
    &[("XOR", &[A, B]), ("AND", &[A, B]), ("XOR", &[N, M])],
    &[("AND", &[A, B]), ("INV", &[N])],
    &[("INV", &[A]), ("INV", &[B]), ("AND", &[N, M])],
    &[("XOR", &[A, B])],
    &[("XOR", &[A, B]), ("INV", &[N])],
    &[("INV", &[A]), ("AND", &[N, B])],
    &[("INV", &[B]), ("AND", &[A, N])],
    &[("INV", &[B]), ("AND", &[A, N]), ("INV", &[M])],
    &[("INV", &[A]), ("AND", &[N, B]), ("INV", &[M])],
    &[("XOR", &[B, C]), ("AND", &[A, N]), ("XOR", &[M, C])],
];

/// The text of a circuit, as export has to write it.
pub fn exported(circuit: &Circuit) -> Vec<u8> {
    let mut wires: Vec<usize> = (0..circuit.inputs).collect();
    let (mut lines, mut next) = (String::new(), circuit.inputs);
    let mut line = |operands: &[usize], next: usize, name: &str| {
        let list: String = operands.iter().map(|operand| format!("{operand} ")).collect();
        lines += &format!("{} 1 {list}{next} {name}\n", operands.len());
    };
    for (kind, own) in &circuit.gates {
        let first = next;
        for (name, operands) in LINES[*kind] {
            let operands: Vec<usize> = operands.iter().map(|of| match *of {
                Of::Own(i) => wires[own[i]],
                Of::Line(i) => first + i,
                Of::Bit(bit) => bit,
            }).collect();
            line(&operands, next, name);
            next += 1;
        }
        wires.push(next - 1);
    }
    for output in &circuit.outputs {
        line(&[wires[*output]], next, "EQW");
        next += 1;
    }
    format!("{} {next}\n1 {}\n1 {}\n\n{lines}", next - circuit.inputs, circuit.inputs, circuit.outputs.len()).into_bytes()
}
