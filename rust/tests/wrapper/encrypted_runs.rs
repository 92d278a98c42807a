//! Encrypted runs decrypt to the plain run's bits, and the run gate by gate gives the whole run's words.

use crate::seeded::{circuit, keys, little, Seeded, CIPHERTEXT};
use egl::{Progress, Refusal, Run};

#[test]
fn random_circuits_decrypt_to_their_plain_run() {
    let (secret, cloud) = keys(60);
    let mut seeded = Seeded(61);
    for round in 0..12 {
        let (inputs, gates, outputs) = (seeded.below(6), 1 + seeded.below(25), 1 + seeded.below(6));
        let (circuit, _, _) = circuit(&mut seeded, inputs, gates, outputs);
        let bits = seeded.bits(inputs);
        let ins = secret.encrypt_bits(&bits, little(), &mut seeded.source()).unwrap();
        let mut wires = vec![7; circuit.wires() * CIPHERTEXT];
        let mut out = vec![7; outputs * CIPHERTEXT];
        circuit.run_encrypted(cloud.view(), &ins, &mut wires, &mut out).unwrap();
        assert_eq!(secret.decrypt_bits(&out).unwrap(), circuit.run_plain(&bits).unwrap(), "round {round}");
        assert_eq!(wires[..ins.len()], ins);
        assert_eq!(circuit.evaluate(cloud.view(), &ins).unwrap(), out);

        // Gate by gate: the same words, and the progress counts every gate once.
        let mut run = Run::start(&circuit, cloud.view(), &ins).unwrap();
        assert_eq!(run.wire(inputs), None);
        let mut seen = Vec::new();
        while let Some(progress) = run.step().unwrap() {
            seen.push(progress);
        }
        assert_eq!(seen, (1..=gates).map(|done| Progress { done, total: gates }).collect::<Vec<_>>());
        assert_eq!((run.wires(), run.outputs().unwrap()), (wires.as_slice(), out.clone()));
        assert_eq!(run.step(), Ok(None));

        // The callback form and the iterator form.
        let mut told = Vec::new();
        let run = Run::start(&circuit, cloud.view(), &ins).unwrap();
        assert_eq!(run.finish(|progress| told.push(progress)).unwrap(), out);
        assert_eq!(told, seen);
        let mut run = Run::start(&circuit, cloud.view(), &ins).unwrap();
        assert_eq!(run.by_ref().collect::<Result<Vec<_>, _>>().unwrap(), seen);
        assert_eq!(run.outputs().unwrap(), out);
    }
}

#[test]
fn wrong_lengths_are_refused_and_nothing_is_written() {
    let (secret, cloud) = keys(62);
    let mut seeded = Seeded(63);
    let (circuit, _, _) = circuit(&mut seeded, 2, 3, 1);
    let ins = secret.encrypt_bits(&[true, false], little(), &mut seeded.source()).unwrap();
    for (ins_cut, wires_cut, out_cut) in [(1, 0, 0), (0, 1, 0), (0, 0, 1)] {
        let mut wires = vec![7; 5 * CIPHERTEXT - wires_cut];
        let mut out = vec![7; CIPHERTEXT - out_cut];
        assert_eq!(circuit.run_encrypted(cloud.view(), &ins[ins_cut..], &mut wires, &mut out), Err(Refusal::Length));
        assert!(wires.iter().chain(&out).all(|word| *word == 7));
    }
    assert_eq!(Run::start(&circuit, cloud.view(), &ins[1..]).err(), Some(Refusal::Length));
    assert_eq!(circuit.evaluate(cloud.view(), &[]), Err(Refusal::Length));
    // Outputs of gates that are not done are not handed out.
    let run = Run::start(&circuit, cloud.view(), &ins).unwrap();
    let early = run.outputs();
    assert_eq!(early.is_err(), circuit.outputs().iter().any(|wire| *wire >= 2));
}
