//! Every refusal number comes out of a call, is told apart, and leaves what was lent as it was.

use crate::seeded::{keys, CIPHERTEXT, MASKS, OUTSIDE, POLYNOMIAL, TINY};
use egl::{lent, Circuit, CloudKey, Gate, Params, Refusal, SecretKeys};

#[test]
fn parameter_is_1() {
    assert_eq!(OUTSIDE.check(), Err(Refusal::Parameter));
    assert_eq!(OUTSIDE.lengths(), Err(Refusal::Parameter));
    assert_eq!(CloudKey::new(OUTSIDE, &[], &[]).err(), Some(Refusal::Parameter));
    assert_eq!(SecretKeys::from_words(OUTSIDE, vec![7], vec![]).err(), Some(Refusal::Parameter));
    let mut out = [5; 3];
    assert_eq!(lent::encrypt_bit(OUTSIDE, true, &[], 0, &[], &mut out), Err(Refusal::Parameter));
    assert_eq!(out, [5; 3]);
    // Both sides of the limits that document 01 names, and numbers that would wrap in 32 bits.
    for (inside, outside) in [
        (Params::new(1100, 10, 8, 4, 6, 5), Params::new(1101, 10, 8, 4, 6, 5)),
        (Params::new(1, 1, 16, 2, 5, 6), Params::new(1, 1, 11, 3, 5, 6)),
        (Params::new(1, 1, 1, 32, 1, 30), Params::new(1, 1, 1, 32, 1, 31)),
        (Params::new(1, 1, 1, 1, 1, 1), Params::new(1, 1, 2, 0x8000_0000, 1, 1)),
        (Params::new(1, 1, 24, 1, 6, 5), Params::new(1, 1, 24, 1, 2, 0x8000_0001)),
        (Params::new(1, 1, 1, 1, 1, 1), Params::new(u32::MAX, u32::MAX, u32::MAX, u32::MAX, u32::MAX, u32::MAX)),
    ] {
        assert_eq!(inside.check(), Ok(()));
        assert_eq!(outside.check(), Err(Refusal::Parameter));
    }
}

#[test]
fn length_is_2() {
    let (secret, cloud) = keys(1);
    let c = vec![0; CIPHERTEXT];
    let mut out = vec![9; MASKS];
    for gate in Gate::ALL {
        let operands = vec![c.as_slice(); gate.operands()];
        assert_eq!(cloud.view().gate(gate, &operands, &mut out), Err(Refusal::Length), "{gate}");
        // One operand more or less.
        let mut right = vec![9; CIPHERTEXT];
        assert_eq!(cloud.view().gate(gate, &vec![c.as_slice(); gate.operands() + 1], &mut right), Err(Refusal::Length), "{gate}");
        if gate.operands() > 0 {
            assert_eq!(cloud.view().gate(gate, &vec![c.as_slice(); gate.operands() - 1], &mut right), Err(Refusal::Length), "{gate}");
            let mut short = operands;
            short[0] = &c[1..];
            assert_eq!(cloud.view().gate(gate, &short, &mut right), Err(Refusal::Length), "{gate}");
        }
        assert_eq!(right, [9; CIPHERTEXT], "{gate}");
    }
    assert_eq!(out, [9; MASKS]);
    assert_eq!(secret.decrypt_bit(&[]), Err(Refusal::Length));
    assert_eq!(secret.decrypt_bits(&[0; CIPHERTEXT + 1]), Err(Refusal::Length));
    let view = cloud.view();
    assert_eq!(CloudKey::new(TINY, &view.switching()[1..], view.bootstrapping()).err(), Some(Refusal::Length));
    assert_eq!(CloudKey::new(TINY, view.switching(), &view.bootstrapping()[1..]).err(), Some(Refusal::Length));
    assert_eq!(SecretKeys::from_words(TINY, vec![7; MASKS - 1], vec![0; POLYNOMIAL]).err(), Some(Refusal::Length));
    assert_eq!(lent::switching_key(TINY, secret.level0(), secret.level1(), &[], &[], &mut []), Err(Refusal::Length));
    assert_eq!(lent::bootstrapping_key(TINY, secret.level0(), secret.level1(), &[], &[], &mut []), Err(Refusal::Length));
}

#[test]
fn index_is_3() {
    let (_, cloud) = keys(2);
    let view = cloud.view();
    assert_eq!(view.switching_row(POLYNOMIAL - 1, 4, 7).map(<[u32]>::len), Ok(CIPHERTEXT));
    const TOP: usize = usize::MAX;
    for (i, j, k) in [(POLYNOMIAL, 0, 1), (0, 5, 1), (0, 0, 8), (0, 0, 0), (TOP, 0, 1), (1 << 32, 0, 1), (0, TOP, 1), (0, 0, TOP), (0, 0, 1 << 32)] {
        assert_eq!(view.switching_row(i, j, k), Err(Refusal::Index), "{i} {j} {k}");
    }
}

#[test]
fn secret_key_word_is_4() {
    let mut key = vec![1; MASKS];
    key[MASKS - 1] = 2;
    let mut out = vec![3; CIPHERTEXT];
    assert_eq!(lent::encrypt_bit(TINY, true, &[0; MASKS], 0, &key, &mut out), Err(Refusal::SecretKeyWord));
    assert_eq!(lent::encrypt_turn(TINY, 0.5, &[0; MASKS], 0, &key, &mut out), Err(Refusal::SecretKeyWord));
    // 4 comes before 5.
    assert_eq!(lent::encrypt_message(TINY, 1, 3, &[0; MASKS], 0, &key, &mut out), Err(Refusal::SecretKeyWord));
    assert_eq!(out, [3; CIPHERTEXT]);
    assert_eq!(lent::decrypt_bit(TINY, &out, &key), Err(Refusal::SecretKeyWord));
    assert_eq!(SecretKeys::from_words(TINY, key, vec![0; POLYNOMIAL]).err(), Some(Refusal::SecretKeyWord));
}

#[test]
fn modulus_is_5() {
    let mut out = vec![3; CIPHERTEXT];
    for modulus in [0, 1, 3, 63, 65, 128, u64::MAX] {
        assert_eq!(lent::encrypt_message(TINY, 1, modulus, &[0; MASKS], 0, &[1; MASKS], &mut out), Err(Refusal::Modulus), "{modulus}");
        assert_eq!(lent::decrypt_message(TINY, modulus, &out, &[1; MASKS]), Err(Refusal::Modulus), "{modulus}");
    }
    assert_eq!(out, [3; CIPHERTEXT]);
}

/// The circuit of document 01: nand of two inputs.
const NAND: [u8; 21] = [0x45, 0x47, 0x4C, 1, 0, 2, 0, 1, 0, 1, 0, 5, 0, 0, 0, 1, 0, 0, 0, 2, 0];

#[test]
fn circuits_are_6_to_10_with_their_place() {
    assert_eq!(Circuit::check(&NAND), Ok(()));
    let damaged = |at: usize, byte: u8| {
        let mut bytes = NAND;
        bytes[at] = byte;
        bytes
    };
    for (at, byte, refusal) in [
        (1, 0, Refusal::CircuitMark { place: 0 }),
        (3, 2, Refusal::CircuitVersion { place: 3 }),
        (6, 2, Refusal::CircuitLength { place: 5 }),
        (8, 9, Refusal::CircuitLength { place: 7 }),
        (9, 0, Refusal::CircuitLength { place: 9 }),
        (7, 2, Refusal::CircuitLength { place: 11 }),
        (11, 14, Refusal::CircuitGate { place: 11 }),
        (12, 1, Refusal::CircuitGate { place: 12 }),
        (13, 2, Refusal::CircuitGate { place: 13 }),
        (17, 1, Refusal::CircuitGate { place: 17 }),
        (19, 3, Refusal::CircuitOutput { place: 19 }),
    ] {
        let bytes = damaged(at, byte);
        assert_eq!(Circuit::check(&bytes), Err(refusal));
        assert_eq!(Circuit::from_bytes(bytes).err(), Some(refusal));
        assert_eq!(Circuit::work_of(&bytes), Err(refusal));
    }
    assert_eq!(Circuit::check(&[]), Err(Refusal::CircuitLength { place: 0 }));
    assert_eq!(Circuit::check(&NAND[..10]), Err(Refusal::CircuitLength { place: 0 }));
    assert_eq!(Circuit::from_bytes(NAND).unwrap().run_plain(&[true]), Err(Refusal::Length));
}

#[test]
fn no_number_is_lost() {
    let place = 7u64 << 32;
    assert_eq!(Refusal::of_answer(place), Ok(7));
    for number in (1..=40).chain([u64::from(u32::MAX)]) {
        let refusal = Refusal::of_answer(place | number).unwrap_err();
        assert_eq!(u64::from(refusal.number()), number);
        let (known, placed) = (number <= 13, number > 5 && number != 13);
        assert_eq!(matches!(refusal, Refusal::Unknown { .. }), !known);
        assert_eq!(refusal.place(), if placed { 7 } else { 0 });
        let text = refusal.to_string();
        assert!(text.contains(&format!("({number})")) && (!placed || text.contains('7')), "{text}");
    }
}
