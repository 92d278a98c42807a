//! The plain run gives what the kinds' meanings give, and the work counts the blind rotations of each kind.

use crate::seeded::{circuit, expected, Seeded};
use egl::{Builder, Circuit, Kind};

/// The work of each kind, by its number: a mux rotates twice.
const WORK: [u32; 14] = [0, 0, 0, 1, 1, 1, 1, 1, 1, 1, 1, 1, 1, 2];

#[test]
fn each_kind_has_its_meaning() {
    for kind in Kind::ALL {
        let mut builder = Builder::new(3);
        let operands: Vec<_> = (0..kind.operands()).map(|i| builder.input(i)).collect();
        let out = builder.gate(kind, &operands);
        builder.output(out);
        let circuit = builder.build().unwrap();
        for row in 0..8 {
            let [a, b, c] = [row & 1 != 0, row & 2 != 0, row & 4 != 0];
            assert_eq!(circuit.run_plain(&[a, b, c]), Ok(vec![kind.meaning(a, b, c)]), "{kind:?}");
        }
        assert_eq!(circuit.work(), Ok(WORK[usize::from(kind.number())]), "{kind:?}");
        assert_eq!(circuit.work(), Ok(kind.rotations() as u32), "{kind:?}");
        assert_eq!(Kind::from_number(kind.number()), Some(kind));
    }
    assert_eq!(Kind::from_number(14), None);
}

#[test]
fn plain_runs_of_random_circuits() {
    let mut seeded = Seeded(50);
    for _ in 0..200 {
        let (inputs, gates, outputs) = (seeded.below(20), 1 + seeded.below(60), 1 + seeded.below(8));
        let (circuit, listed, outs) = circuit(&mut seeded, inputs, gates, outputs);
        assert_eq!((circuit.inputs(), circuit.gates(), circuit.outputs()), (inputs, gates, outs.as_slice()));
        let work = listed.iter().map(|(kind, _)| WORK[usize::from(kind.number())]).sum();
        assert_eq!(circuit.work(), Ok(work));
        let sums: Vec<u32> = (0..=gates).map(|g| listed[..g].iter().map(|(kind, _)| WORK[usize::from(kind.number())]).sum()).collect();
        assert_eq!((0..=gates).map(|g| circuit.work_to(g)).collect::<Vec<_>>(), sums);
        assert_eq!((circuit.work_to(gates + 1), circuit.work_to(usize::MAX)), (work, work));
        for _ in 0..5 {
            let ins = seeded.bits(inputs);
            assert_eq!(circuit.run_plain(&ins), Ok(expected(&listed, &outs, &ins)));
        }
    }
}

/// An adder against the machine's own addition.
#[test]
fn an_adder_adds() {
    let mut builder = Builder::new(16);
    let mut carry = builder.gate(Kind::False, &[]);
    for i in 0..8 {
        let (a, b) = (builder.input(i), builder.input(8 + i));
        let half = builder.gate(Kind::Xor, &[a, b]);
        let sum = builder.gate(Kind::Xor, &[half, carry]);
        carry = builder.gate(Kind::Mux, &[half, carry, a]);
        builder.output(sum);
    }
    builder.output(carry);
    let circuit = builder.build().unwrap();
    let mut seeded = Seeded(51);
    for _ in 0..200 {
        let ins = seeded.bits(16);
        let number = |bits: &[bool]| bits.iter().rev().fold(0u32, |number, bit| number << 1 | u32::from(*bit));
        assert_eq!(number(&circuit.run_plain(&ins).unwrap()), number(&ins[..8]) + number(&ins[8..]));
    }
}

/// Random bytes and damaged circuits: an answer always comes, and bytes that are accepted can be run.
#[test]
fn any_bytes_get_an_answer() {
    let mut seeded = Seeded(52);
    let mut accepted = 0;
    for round in 0..2_000 {
        let mut bytes = if round % 2 == 0 {
            let length = seeded.below(80);
            (0..length).map(|_| seeded.next() as u8).collect()
        } else {
            circuit(&mut seeded, 3, 4, 2).0.bytes().to_vec()
        };
        if !bytes.is_empty() && round % 4 != 1 {
            let (at, byte) = (seeded.below(bytes.len()), seeded.next() as u8);
            bytes[at] = byte;
        }
        match Circuit::from_bytes(bytes.clone()) {
            Ok(circuit) => {
                accepted += 1;
                assert!(circuit.run_plain(&vec![true; circuit.inputs()]).is_ok());
                assert!(circuit.outputs().iter().all(|wire| *wire < circuit.wires()));
            }
            Err(refusal) => assert!((6..=10).contains(&refusal.number()) && refusal.place() as usize <= bytes.len().max(11)),
        }
    }
    assert!(accepted >= 500, "{accepted}");
}
