//! Importing Bristol Fashion text beside a plain reader, and refusing one of a block cipher's size.

use crate::library;
use crate::measure::{table, way};
use crate::words;
use std::hint::black_box;

const INPUTS: usize = 256;
const OUTPUTS: usize = 64;
const LIBRARY: &str = "library, bristol_import";
const PLAIN: &str = "plain Rust with a table";

/// A text with so many gates and EQW in a random order, the wires behind the inputs in a random numbering.
fn text(gates: usize, eqw: usize) -> Vec<u8> {
    let (all, wires) = (gates + eqw, INPUTS + gates + eqw);
    let mut draw = words(6 * all, 19).into_iter();
    let mut below = |bound: usize| draw.next().expect("words enough") as usize % bound;
    let mut numbers: Vec<usize> = (0..wires).collect();
    let mut names: Vec<&str> = (0..all).map(|g| if g < eqw { "EQW" } else { ["XOR", "AND", "XOR", "AND", "INV"][g % 5] }).collect();
    for i in (1..all).rev() {
        numbers.swap(INPUTS + i, INPUTS + below(i + 1));
        names.swap(i, below(i + 1));
    }
    let mut out = format!("{all} {wires}\n2 {0} {0}\n1 {OUTPUTS}\n\n", INPUTS / 2);
    for (g, name) in names.iter().enumerate() {
        let mut operand = || numbers[below(INPUTS + g)];
        let operands = if ["XOR", "AND"].contains(name) { format!("2 1 {} {}", operand(), operand()) } else { format!("1 1 {}", operand()) };
        out += &format!("{operands} {} {name}\n", numbers[INPUTS + g]);
    }
    out.into_bytes()
}

/// The largest circuit's length.
const LONGEST: usize = 11 + 8 * 1024 + 2 * 64;

/// The sum of a list of sizes.
fn sizes<'a>(tokens: &mut impl Iterator<Item = &'a str>) -> Option<usize> {
    let count: u32 = tokens.next()?.parse().ok()?;
    (0..count).try_fold(0usize, |sum, _| sum.checked_add(tokens.next()?.parse::<u32>().ok()? as usize))
}

/// Reads a text as one would by hand: split at blanks, a table of the wires that are set with their numbers in the circuit. The whole text is read before a limit is told of.
/// Gives the circuit's length; MAND and texts that are not in the form give nothing.
fn plain(text: &[u8], out: &mut [u8]) -> Option<usize> {
    let mut tokens = std::str::from_utf8(text).ok()?.split_ascii_whitespace();
    let gates: u32 = tokens.next()?.parse().ok()?;
    let wires = tokens.next()?.parse::<u32>().ok()? as usize;
    let inputs = sizes(&mut tokens)?;
    let outputs = sizes(&mut tokens)?;
    if inputs + gates as usize != wires || outputs > wires {
        return None;
    }
    let mut table: Vec<Option<u32>> = vec![None; wires];
    (0..inputs).for_each(|wire| table[wire] = Some(wire as u32));
    let mut circuit: Vec<u16> = Vec::new();
    let mut made = 0;
    for _ in 0..gates {
        let operands: u32 = tokens.next()?.parse().ok()?;
        if !(1..=2).contains(&operands) || tokens.next()? != "1" {
            return None;
        }
        let mut read = [0u32; 2];
        for operand in &mut read[..operands as usize] {
            *operand = tokens.next()?.parse().ok()?;
        }
        let [a, b] = read;
        let result = tokens.next()?.parse::<u32>().ok()? as usize;
        let wire = |number: u32| table.get(number as usize).copied().flatten();
        let gate = match (operands, tokens.next()?) {
            (2, "XOR") => Some([7, wire(a)?, wire(b)?]),
            (2, "AND") => Some([3, wire(a)?, wire(b)?]),
            (1, "INV") => Some([2, wire(a)?, 0]),
            (1, "EQ") if a < 2 => Some([a, 0, 0]),
            (1, "EQW") => None,
            _ => return None,
        };
        let own = match gate {
            None => wire(a)?,
            Some(gate) => {
                circuit.extend(gate.map(|field| field as u16));
                circuit.push(0);
                made += 1;
                (inputs + made - 1) as u32
            }
        };
        if table.get_mut(result)?.replace(own).is_some() {
            return None;
        }
    }
    if tokens.next().is_some() || inputs > 256 || made > 1024 || outputs == 0 || outputs > 64 {
        return None;
    }
    let head = [1, inputs, made, outputs].map(|field| field as u16);
    let last = table[wires - outputs..].iter().map(|wire| wire.expect("every wire is set") as u16);
    let fields = head.into_iter().chain(circuit).chain(last);
    let length = 11 + 8 * made + 2 * outputs;
    let out = out.get_mut(..length)?;
    out[..3].copy_from_slice(b"EGL");
    out[3..].chunks_exact_mut(2).zip(fields).for_each(|(two, field)| two.copy_from_slice(&field.to_le_bytes()));
    Some(length)
}

pub fn run() {
    let fits = text(1024, 64);
    let (mut o1, mut o2) = (vec![0; LONGEST], vec![1; LONGEST]);
    let told = library::import_bristol(&fits, &mut o1);
    assert!(told == (LONGEST as u64) << 32, "the library refused");
    assert!(plain(&fits, &mut o2) == Some(LONGEST), "the plain reader refused");
    assert!(o1 == o2, "the two circuits differ");
    let ways = vec![
        way(LIBRARY, || assert!(library::import_bristol(black_box(&fits), &mut o1) == told)),
        way(PLAIN, || assert!(plain(black_box(&fits), &mut o2).is_some())),
    ];
    table("Importing a text of 1,088 gates (64 of them EQW); bar: library at most 3 of plain Rust", ways, 2000, PLAIN);

    let (cipher, mut o1, mut o2) = (text(36_000, 0), vec![0; LONGEST], vec![0; LONGEST]);
    assert!(library::import_bristol(&cipher, &mut o1) as u32 == 12, "not refused with 12");
    let ways = vec![
        way(LIBRARY, || assert!(library::import_bristol(black_box(&cipher), &mut o1) as u32 == 12)),
        way(PLAIN, || assert!(plain(black_box(&cipher), &mut o2).is_none())),
    ];
    table("Refusing a text of 36,000 gates with 12; bar: library at most 1,000,000 us", ways, 20, PLAIN);
}
