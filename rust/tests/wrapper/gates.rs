//! Every gate on every input decrypts to its meaning, by its method and by its name.

use crate::seeded::{keys, keys_at, little, Seeded, CIPHERTEXT, MASKS, TINY};
use egl::sets::PRACTICE;
use egl::{CloudKey, Gate, Params, Refusal};

fn truth_tables(params: Params, seed: u64) {
    let (secret, cloud) = keys_at(params, seed);
    let mut seeded = Seeded(seed + 100);
    for gate in Gate::ALL {
        for (operands, meant) in gate.truth_table() {
            let taken = &operands[..gate.operands()];
            let inputs: Vec<Vec<u32>> = taken.iter().map(|bit| secret.encrypt_bit(*bit, little(), &mut seeded.source()).unwrap()).collect();
            let lent: Vec<&[u32]> = inputs.iter().map(Vec::as_slice).collect();
            let out = cloud.view().evaluate(gate, &lent).unwrap();
            assert_eq!(secret.decrypt_bit(&out), Ok(meant), "{gate} {operands:?} seed {seed}");
        }
    }
}

#[test]
fn truth_tables_under_fresh_keys() {
    (10..13).for_each(|seed| truth_tables(TINY, seed));
    truth_tables(PRACTICE.params, 15);
}

type Method<'a> = fn(&CloudKey<'a>, &[u32], &[u32], &mut [u32]) -> Result<(), Refusal>;

#[test]
fn methods_and_names_give_the_same_words() {
    let (secret, cloud) = keys(20);
    let key = cloud.view();
    let mut seeded = Seeded(21);
    let [a, b, c] = [true, false, true].map(|bit| secret.encrypt_bit(bit, little(), &mut seeded.source()).unwrap());
    let methods: [(Gate, Method<'_>); 10] = [
        (Gate::Nand, CloudKey::nand),
        (Gate::Or, CloudKey::or),
        (Gate::And, CloudKey::and),
        (Gate::Nor, CloudKey::nor),
        (Gate::AndNy, CloudKey::and_ny),
        (Gate::AndYn, CloudKey::and_yn),
        (Gate::OrNy, CloudKey::or_ny),
        (Gate::OrYn, CloudKey::or_yn),
        (Gate::Xor, CloudKey::xor),
        (Gate::Xnor, CloudKey::xnor),
    ];
    let mut out = vec![0; CIPHERTEXT];
    for (gate, method) in methods {
        method(&key, &a, &b, &mut out).unwrap();
        assert_eq!(key.evaluate(gate, &[&a, &b]).unwrap(), out, "{gate}");
    }
    key.mux(&a, &b, &c, &mut out).unwrap();
    assert_eq!(key.evaluate(Gate::Mux, &[&a, &b, &c]).unwrap(), out);
    key.mux_naive(&a, &b, &c, &mut out).unwrap();
    assert_eq!(key.evaluate(Gate::MuxNaive, &[&a, &b, &c]).unwrap(), out);
    key.not(&a, &mut out).unwrap();
    assert!(out.iter().zip(&a).all(|(got, word)| *got == word.wrapping_neg()));
    key.copy(&a, &mut out).unwrap();
    assert_eq!(out, a);
    key.constant(false, &mut out).unwrap();
    assert_eq!((out[..MASKS].iter().all(|word| *word == 0), out[MASKS]), (true, 1u32.wrapping_sub(1 << 29)));
    key.constant(true, &mut out).unwrap();
    assert_eq!(out[MASKS], 1 << 29);
}

#[test]
fn tables_have_their_sizes() {
    for gate in Gate::ALL {
        assert_eq!(gate.truth_table().count(), 1 << gate.operands());
    }
    // The original's xnor is xor.
    assert!(Gate::Xnor.truth_table().eq(Gate::Xor.truth_table()));
    assert_eq!(format!("{:>6}|{:<10}|", Gate::Nor, Gate::MuxNaive), "   nor|mux_naive |");
}
