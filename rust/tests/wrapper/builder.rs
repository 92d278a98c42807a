//! The builder writes document 01's form, and its mistakes are refused by the proved check.

use egl::{Builder, Circuit, Kind, Refusal, Wire};

/// Document 01's example: nand of two inputs.
const NAND: [u8; 21] = [0x45, 0x47, 0x4C, 0x01, 0x00, 0x02, 0x00, 0x01, 0x00, 0x01, 0x00, 0x05, 0x00, 0x00, 0x00, 0x01, 0x00, 0x00, 0x00, 0x02, 0x00];

#[test]
fn bytes_are_those_of_the_example() {
    let mut builder = Builder::new(2);
    let out = builder.gate(Kind::Nand, &[builder.input(0), builder.input(1)]);
    builder.output(out);
    assert_eq!(builder.bytes(), NAND);
    let circuit = builder.build().unwrap();
    assert_eq!(circuit, Circuit::from_bytes(NAND).unwrap());
    assert_eq!((circuit.inputs(), circuit.gates(), circuit.wires(), circuit.outputs(), circuit.work()), (2, 1, 3, &[2][..], Ok(1)));
    assert_eq!((circuit.kind(0), circuit.kind(1), circuit.kind(usize::MAX)), (Some(Kind::Nand), None, None));
    for (ins, out) in [([false, false], true), ([true, false], true), ([false, true], true), ([true, true], false)] {
        assert_eq!(circuit.run_plain(&ins), Ok(vec![out]));
    }
}

/// Two inputs, one gate, one output: the refusal of what the gate is given.
fn refusal(kind: Kind, operands: impl FnOnce(&Builder) -> Vec<Wire>) -> Option<Refusal> {
    let mut builder = Builder::new(2);
    let operands = operands(&builder);
    let out = builder.gate(kind, &operands);
    builder.output(out);
    builder.build().err()
}

#[test]
fn wrong_operands_are_refused_at_their_place() {
    let at = |place| Some(Refusal::CircuitGate { place });
    assert_eq!(refusal(Kind::And, |b| vec![b.input(0), b.input(1)]), None);
    // Missing ones, the first missing place first.
    assert_eq!(refusal(Kind::And, |_| vec![]), at(13));
    assert_eq!(refusal(Kind::And, |b| vec![b.input(0)]), at(15));
    assert_eq!(refusal(Kind::Mux, |b| vec![b.input(0), b.input(1)]), at(17));
    // Too many, wire 0 too, whose bytes would be those of an absent operand.
    assert_eq!(refusal(Kind::True, |b| vec![b.input(0)]), at(13));
    assert_eq!(refusal(Kind::Not, |b| vec![b.input(0), b.input(0)]), at(15));
    assert_eq!(refusal(Kind::And, |b| vec![b.input(0); 3]), at(17));
    assert_eq!(refusal(Kind::Mux, |b| vec![b.input(0); 4]), at(12));
    // An input that is not there.
    assert_eq!(refusal(Kind::Not, |b| vec![b.input(2)]), at(13));
    assert_eq!(refusal(Kind::Not, |b| vec![b.input(usize::MAX)]), at(13));
    // An input that is not there, though a gate's wire by now has that number.
    let mut builder = Builder::new(2);
    builder.gate(Kind::True, &[]);
    let out = builder.gate(Kind::Not, &[builder.input(2)]);
    builder.output(out);
    assert_eq!(builder.build().err(), at(21));
    // A wire of a larger circuit.
    let mut other = Builder::new(9);
    let far = other.gate(Kind::True, &[]);
    assert_eq!(refusal(Kind::Not, |_| vec![far]), at(13));
}

#[test]
fn counts_are_refused_at_their_place() {
    let count = |place| Some(Refusal::CircuitLength { place });
    let built = |inputs: usize, gates: usize, outputs: usize| {
        let mut builder = Builder::new(inputs);
        let mut last = builder.input(0);
        for _ in 0..gates {
            last = builder.gate(Kind::True, &[]);
        }
        for _ in 0..outputs {
            builder.output(last);
        }
        builder.build().err()
    };
    assert_eq!(built(256, 1024, 64), None);
    assert_eq!(built(257, 1, 1), count(5));
    assert_eq!(built(usize::MAX, 1, 1), count(5));
    assert_eq!(built(65_536, 1, 1), count(5));
    assert_eq!(built(1, 1025, 1), count(7));
    assert_eq!(built(1, 65_537, 1), count(7));
    assert_eq!(built(1, 1, 0), count(9));
    assert_eq!(built(1, 1, 65), count(9));
    assert_eq!(built(1, 1, 65_537), count(9));
    // No wire at all: the output cannot be one.
    assert_eq!(built(0, 0, 1), Some(Refusal::CircuitOutput { place: 11 }));
}
