//! Texts in the Bristol Fashion form to try: valid ones in any numbering of the wires, written in several ways, and damaged ones.

use crate::source::Source;

/// A text as its tokens.
pub type Tokens = Vec<String>;

/// Which gates a text has.
#[derive(Clone, Copy)]
pub struct Shape {
    pub inputs: usize,
    /// Gates but EQW and MAND.
    pub gates: usize,
    pub eqw: usize,
    pub mand: usize,
    pub outputs: usize,
}

/// A sum as the sizes of so many values, some of them 0.
fn sizes(source: &mut Source, sum: usize, values: usize) -> Tokens {
    let mut left = sum;
    let mut out = vec![values.to_string()];
    for value in 0..values {
        let size = if value + 1 == values { left } else { source.below(left as u64 + 1) as usize };
        left -= size;
        out.push(size.to_string());
    }
    out
}

/// One value mostly; none only where there is nothing to tell.
fn values(source: &mut Source, sum: usize) -> usize {
    match source.below(4) {
        0 => 1 + source.below(4) as usize,
        1 if sum == 0 => 0,
        _ => 1,
    }
}

/// The names of the gates, in a random order; what cannot stand first where no wire is set does not.
fn names(source: &mut Source, shape: &Shape) -> Vec<&'static str> {
    let mut names: Vec<&str> = vec!["EQW"; shape.eqw];
    names.extend(vec!["MAND"; shape.mand]);
    names.extend((0..shape.gates).map(|_| source.of(&["XOR", "AND", "XOR", "AND", "INV", "EQ"])));
    for i in (1..names.len()).rev() {
        names.swap(i, source.below(i as u64 + 1) as usize);
    }
    if shape.inputs == 0 && shape.gates > 0 {
        let first = names.iter().position(|name| !["EQW", "MAND"].contains(name)).expect("a gate");
        names[first] = "EQ";
        names.swap(0, first);
    }
    names
}

/// A text in the form. Wires behind the inputs are numbered in a random order, or in the order in which they are set. EQW mostly takes what the gate before it
/// gave, so that there are chains of it. Without inputs it takes a gate to set a wire for EQW and MAND.
pub fn valid(source: &mut Source, shape: &Shape, shuffled: bool) -> Tokens {
    let names = names(source, shape);
    let widths: Vec<usize> = names.iter().map(|name| if *name == "MAND" { source.of(&[1, 2, 3]) } else { 1 }).collect();
    let wires = shape.inputs + widths.iter().sum::<usize>();
    let mut numbers: Vec<usize> = (0..wires).collect();
    if shuffled {
        for i in (shape.inputs + 1..wires).rev() {
            numbers.swap(i, shape.inputs + source.below((i + 1 - shape.inputs) as u64) as usize);
        }
    }
    let mut out = vec![names.len().to_string(), wires.to_string()];
    for sum in [shape.inputs, shape.outputs.min(wires)] {
        let values = values(source, sum);
        out.extend(sizes(source, sum, values));
    }
    let mut set = shape.inputs;
    for (name, width) in names.iter().zip(widths) {
        let operands = match *name {
            "XOR" | "AND" => 2,
            "MAND" => 2 * width,
            _ => 1,
        };
        out.extend([operands.to_string(), width.to_string()]);
        for _ in 0..operands {
            let wire = match *name {
                "EQ" => source.below(2) as usize,
                "EQW" if source.below(4) != 0 => numbers[set - 1],
                _ => numbers[source.below(set as u64) as usize],
            };
            out.push(wire.to_string());
        }
        out.extend(numbers[set..set + width].iter().map(usize::to_string));
        set += width;
        out.push(name.to_string());
    }
    out
}

/// The tokens of a small text.
pub fn small(source: &mut Source) -> Tokens {
    let below = |source: &mut Source, bound: u64| source.below(bound) as usize;
    let mut shape = Shape { inputs: below(source, 6), gates: below(source, 8), eqw: below(source, 6), mand: 0, outputs: below(source, 5) };
    if source.below(12) == 0 {
        shape.mand = 1 + below(source, 2);
    }
    if shape.inputs + shape.gates == 0 {
        shape.inputs = 1;
    }
    if source.below(8) != 0 {
        shape.outputs = shape.outputs.max(1);
    }
    let shuffled = source.below(4) != 0;
    valid(source, &shape, shuffled)
}

/// The tokens of a text of some hundred gates, well inside the limits.
pub fn middling(source: &mut Source) -> Tokens {
    let mut below = |bound: u64| source.below(bound) as usize;
    let shape = Shape { inputs: 1 + below(60), gates: below(150), eqw: below(100), mand: 0, outputs: 1 + below(64) };
    valid(source, &shape, true)
}

/// The text as published circuits have it: a line for the counts, for the inputs, for the outputs, an empty one, a line for each gate.
pub fn lines(tokens: &[String], end: &str) -> Vec<u8> {
    let count = |at: usize| tokens.get(at).and_then(|token| token.parse().ok()).unwrap_or(0usize).min(tokens.len());
    let (ins, outs) = (2, 3 + count(2));
    let head = outs + 1 + count(outs);
    let mut text = String::new();
    for (i, token) in tokens.iter().enumerate() {
        let name = token.starts_with(|c: char| c.is_ascii_uppercase());
        let ends = i + 1 == ins || i + 1 == outs || i + 1 == head || i >= head && name;
        text += token;
        text += if ends { end } else { " " };
        if i + 1 == head {
            text += end;
        }
    }
    text.into_bytes()
}

/// The text in some way of writing: lines that end with LF or CRLF, the last one perhaps not ended; all in one line; any blanks, also in front and behind.
pub fn written(source: &mut Source, tokens: &[String]) -> Vec<u8> {
    match source.below(8) {
        0 => lines(tokens, "\r\n"),
        1 => lines(tokens, "\n").trim_ascii_end().to_vec(),
        2 => tokens.join(" ").into_bytes(),
        3 | 4 => {
            let mut text = Vec::new();
            for token in tokens {
                blanks(source, &mut text);
                text.extend(token.bytes());
            }
            if source.below(2) == 0 {
                blanks(source, &mut text);
            }
            // no blank is needed in front
            if source.below(2) == 0 { text.trim_ascii_start().to_vec() } else { text }
        }
        _ => lines(tokens, "\n"),
    }
}

fn blanks(source: &mut Source, text: &mut Vec<u8>) {
    for _ in 0..1 + source.below(3) {
        text.push(source.of(b" \t\r\n"));
    }
}

/// What may stand in place of a token: numbers near it, at the limits, the same with zeros in front, what wraps to it in 32 and in 64 bits, other names, no number at all.
pub fn others(token: &str) -> Tokens {
    const ANY: [&str; 35] = [
        "0", "1", "2", "3", "4", "5", "6", "7", "8", "9", "00", "01", "000000000000000000000000000000000000000001", "400000", "400001", "2147483647", "2147483648",
        "4294967294", "4294967295", "4294967296", "4294967297", "9999999999", "18446744073709551615", "18446744073709551616", "18446744073709551617",
        "-1", "+1", "1.", "0x1", "1a", "a1", "/", ":", "9/", ":1",
    ];
    const NAMES: [&str; 24] = [
        "XOR", "AND", "INV", "EQ", "EQW", "MAND", "NOT", "OR", "NAND", "xor", "And", "XO", "XORX", "AN", "ANDD", "IN", "INVV", "E", "EQ0", "EQWW", "MAN", "MANDD", "MA", "NXOR",
    ];
    let mut out: Tokens = ANY.iter().chain(&NAMES).map(|other| other.to_string()).collect();
    if let Ok(number) = token.parse::<u128>() {
        out.extend([number + 1, number.saturating_sub(1), number * 2, number * 10, number + (1 << 32), number + (1 << 64), number + (1 << 8), number + (1 << 16)].map(|x| x.to_string()));
        out.extend([1, 9, 10, 11, 20, 70].map(|zeros| "0".repeat(zeros) + token));
        out.push(format!("{token}{}", "0".repeat(40)));
    }
    out
}

/// One to three tokens changed, left out, doubled, or exchanged; mostly refused afterwards.
pub fn damage(source: &mut Source, tokens: &mut Tokens) {
    for _ in 0..1 + source.below(3) {
        let at = source.below(tokens.len() as u64) as usize;
        match source.below(12) {
            0 => drop(tokens.remove(at)),
            1 => tokens.insert(at, tokens[at].clone()),
            2 | 3 => {
                let with = source.below(tokens.len() as u64) as usize;
                tokens.swap(at, with);
            }
            // another token of the same text
            4..=6 => tokens[at] = tokens[source.below(tokens.len() as u64) as usize].clone(),
            7 => tokens.truncate(at),
            8 => tokens.push(source.of(&["0", "1", "XOR", "EQW", "x"]).to_string()),
            _ => {
                let list = others(&tokens[at]);
                tokens[at] = list[source.below(list.len() as u64) as usize].clone();
            }
        }
        if tokens.is_empty() {
            return;
        }
    }
}

/// One or two bytes changed, left out or put in, now and then the end cut off.
pub fn damage_bytes(source: &mut Source, text: &mut Vec<u8>) {
    for _ in 0..1 + source.below(2) {
        if text.is_empty() {
            return;
        }
        let at = source.below(text.len() as u64) as usize;
        let byte = if source.below(3) == 0 { source.next() as u8 } else { source.of(b"0123456789 \n\t\r\x0b\x0c\0AEMXW") };
        match source.below(8) {
            0 => drop(text.remove(at)),
            1 => text.insert(at, byte),
            2 => text.truncate(at),
            _ => text[at] = byte,
        }
    }
}
