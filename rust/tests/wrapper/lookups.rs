//! Lookups on encrypted messages: every message of every modulus beside the plain table, chains, sums, and gates that take a lookup's bit.

use crate::seeded::{keys, keys_at, little, Seeded, CIPHERTEXT, MASKS, TINY};
use crate::tables::MODULI;
use egl::sets::PRACTICE;
use egl::{lent, message_word, Builder, Gate, Kind, OwnedCloudKey, Params, Refusal, SecretKeys, Table};

/// N 256 beside so few masks that rounding stays inside the margin of every modulus but the largest, and nearly of that.
pub const LONG: Params = Params::new(3, 8, 8, 3, 3, 6);

fn encrypted(secret: &SecretKeys, value: u64, modulus: u64, seeded: &mut Seeded) -> Vec<u32> {
    secret.encrypt_message(value, modulus, little(), &mut seeded.source()).unwrap()
}

/// A random table, and the numbers that it stands for.
fn any_table(modulus: u64, results: u64, seeded: &mut Seeded) -> (Table, Vec<u64>) {
    let plain: Vec<u64> = (0..modulus).map(|_| seeded.next() % results).collect();
    (Table::messages(modulus, results, |m| plain[m as usize]).unwrap(), plain)
}

#[test]
fn every_message_gives_its_word() {
    let (secret, cloud) = keys_at(LONG, 120);
    let mut seeded = Seeded(121);
    for modulus in &MODULI[..5] {
        let (table, plain) = any_table(*modulus, *modulus, &mut seeded);
        for (value, meant) in (0..).zip(&plain) {
            let out = cloud.view().evaluate_lookup(&table, &encrypted(&secret, value, *modulus, &mut seeded)).unwrap();
            assert_eq!(secret.decrypt_message(*modulus, &out), Ok(*meant as u32), "{value} of {modulus}");
        }
    }
    // Results of another modulus than the messages'.
    for (modulus, results) in [(2, 64), (4, 32), (16, 2), (32, 4)] {
        let (table, plain) = any_table(modulus, results, &mut seeded);
        for (value, meant) in (0..).zip(&plain) {
            let out = cloud.view().evaluate_lookup(&table, &encrypted(&secret, value, modulus, &mut seeded)).unwrap();
            assert_eq!(secret.decrypt_message(results, &out), Ok(*meant as u32), "{value} of {modulus} to {results}");
        }
    }
    // The largest modulus, judged: where the drifts are inside, the message is right.
    let (table, plain) = any_table(64, 64, &mut seeded);
    let told = (0..64).map(|value| {
        let (out, told) = cloud.view().evaluate_lookup_drift(&table, &secret, value, &encrypted(&secret, value, 64, &mut seeded)).unwrap();
        assert!(!told.inside || secret.decrypt_message(64, &out) == Ok(plain[value as usize] as u32), "{value}");
        usize::from(told.inside)
    });
    assert!(told.sum::<usize>() > 32);
}

/// At the set of the examples, where rounding of twenty masks is counted too.
#[test]
fn the_practice_set_serves_modulus_8() {
    let (secret, cloud) = keys_at(PRACTICE.params, 122);
    let mut seeded = Seeded(123);
    let (table, plain) = any_table(8, 8, &mut seeded);
    for (value, meant) in (0..).zip(&plain) {
        let c = secret.encrypt_message(value, 8, PRACTICE.noise, &mut seeded.source()).unwrap();
        assert_eq!(secret.decrypt_message(8, &cloud.view().evaluate_lookup(&table, &c).unwrap()), Ok(*meant as u32));
    }
}

#[test]
fn tables_chain() {
    let (secret, cloud) = keys_at(LONG, 124);
    let mut seeded = Seeded(125);
    let (first, f) = any_table(8, 16, &mut seeded);
    let (second, g) = any_table(16, 4, &mut seeded);
    let (third, h) = any_table(4, 8, &mut seeded);
    for value in 0..8 {
        let mut c = encrypted(&secret, value, 8, &mut seeded);
        for table in [&first, &second, &third] {
            c = cloud.view().evaluate_lookup(table, &c).unwrap();
        }
        let meant = h[g[f[value as usize] as usize] as usize];
        assert_eq!(secret.decrypt_message(8, &c), Ok(meant as u32), "{value}");
    }
}

/// Digits a and b: 3 + a - b as one sum, then its order.
#[test]
fn sums_go_into_tables() {
    let (secret, cloud) = keys_at(LONG, 126);
    let mut seeded = Seeded(127);
    let order = Table::messages(8, 4, |m| u64::from(m >= 3) + u64::from(m > 3)).unwrap();
    for (a, b) in (0..16).map(|pair| (pair / 4, pair % 4)) {
        let (x, y) = (encrypted(&secret, a, 8, &mut seeded), encrypted(&secret, b, 8, &mut seeded));
        let sum = cloud.view().evaluate_sum(8, 3, &[(1, &x), (-1, &y)]).unwrap();
        assert_eq!(secret.decrypt_message(8, &sum), Ok((3 + a - b) as u32));
        assert_eq!(secret.message_drift(3 + a - b, 8, &sum), Ok(secret.message_drift(a, 8, &x).unwrap() - secret.message_drift(b, 8, &y).unwrap()));
        let out = cloud.view().evaluate_lookup(&order, &sum).unwrap();
        assert_eq!(secret.decrypt_message(4, &out), Ok((a.cmp(&b) as i8 + 1) as u32), "{a} and {b}");
    }
}

#[test]
fn sums_are_the_librarys() {
    let (secret, cloud) = keys(128);
    let mut seeded = Seeded(129);
    let (a, b) = (encrypted(&secret, 1, 16, &mut seeded), encrypted(&secret, 2, 16, &mut seeded));
    let view = cloud.view();
    let lent = |call: &dyn Fn(&mut [u32]) -> Result<(), Refusal>| {
        let mut out = vec![0; CIPHERTEXT];
        call(&mut out).map(|()| out)
    };
    assert_eq!(view.evaluate_sum(16, 0, &[(1, &a), (1, &b)]), lent(&|out| lent::add(TINY, &a, &b, out)));
    assert_eq!(view.evaluate_sum(16, 0, &[(1, &a), (-1, &b)]), lent(&|out| lent::sub(TINY, &a, &b, out)));
    assert_eq!(view.evaluate_sum(16, 0, &[(5, &b), (1, &a)]), lent(&|out| lent::add_mul(TINY, &a, &b, 5, out)));
    assert_eq!(view.evaluate_sum(16, 0, &[(-5, &b), (1, &a)]), lent(&|out| lent::sub_mul(TINY, &a, &b, 5, out)));
    // No term: a plain message, which every key decrypts.
    let plain = view.evaluate_sum(16, 16 + 9, &[]).unwrap();
    assert_eq!(plain, [vec![0; MASKS], vec![message_word(9, 16).unwrap()]].concat());
    assert_eq!(view.evaluate_sum(16, 0, &[(1, &a), (1, &b[1..])]), Err(Refusal::Length));
    // 2 before 5, as in the library's calls.
    assert_eq!(view.evaluate_sum(3, 0, &[(1, &a), (1, &b[1..])]), Err(Refusal::Length));
    assert_eq!(view.evaluate_sum(3, 0, &[(1, &a), (1, &b)]), Err(Refusal::Modulus));
    assert_eq!(secret.message_drift(1, 3, &a), Err(Refusal::Modulus));
    assert_eq!(secret.message_drift(1, 16, &a[1..]), Err(Refusal::Length));
}

/// Half a turn is M: past it the word's sign turns.
#[test]
fn past_the_modulus_the_sign_turns() {
    let (secret, cloud) = keys_at(LONG, 130);
    let mut seeded = Seeded(131);
    let bit = Table::bits(4, |m| m != 2).unwrap();
    for value in 0..4 {
        let c = encrypted(&secret, value, 4, &mut seeded);
        // Four ones more, as a sum may bring them in; 4 as a plain message would be 0.
        let past = cloud.view().evaluate_sum(4, 2, &[(1, &c), (1, &encrypted(&secret, 2, 4, &mut seeded))]).unwrap();
        let [here, there] = [&c, &past].map(|c| secret.decrypt_bit(&cloud.view().evaluate_lookup(&bit, c).unwrap()).unwrap());
        assert_eq!((here, there), (value != 2, value == 2), "{value}");
    }
}

/// A gate takes lookups' bits, and a lookup stands between two gates' circuits.
#[test]
fn gates_take_a_lookups_bit() {
    let (secret, cloud) = keys_at(LONG, 132);
    let mut seeded = Seeded(133);
    let (odd, high) = (Table::bits(8, |m| m & 1 != 0).unwrap(), Table::bits(4, |m| m > 1).unwrap());
    let mut builder = Builder::new(3);
    let [a, b, c] = [0, 1, 2].map(|i| builder.input(i));
    let differ = builder.gate(Kind::Xor, &[a, b]);
    let out = builder.gate(Kind::Mux, &[differ, b, c]);
    builder.output(out);
    let circuit = builder.build().unwrap();
    for (x, y) in (0..32).map(|pair| (pair / 4, pair % 4)) {
        let bits = [x & 1 != 0, y > 1, x > y];
        let first = cloud.view().evaluate_lookup(&odd, &encrypted(&secret, x, 8, &mut seeded)).unwrap();
        let second = cloud.view().evaluate_lookup(&high, &encrypted(&secret, y, 4, &mut seeded)).unwrap();
        assert_eq!((secret.decrypt_bit(&first), secret.decrypt_bit(&second)), (Ok(bits[0]), Ok(bits[1])));
        let nand = cloud.view().evaluate(Gate::Nand, &[&first, &second]).unwrap();
        assert_eq!(secret.decrypt_bit(&nand), Ok(!(bits[0] && bits[1])), "{x} and {y}");
        let ins = [first, second, secret.encrypt_bit(bits[2], little(), &mut seeded.source()).unwrap()].concat();
        let run = circuit.evaluate_drift(cloud.view(), &secret, &ins, &bits).unwrap();
        assert!(run.inside);
        assert_eq!(secret.decrypt_bits(&run.outputs), circuit.run_plain(&bits), "{x} and {y}");
    }
}

/// A lookup that is refused leaves its place as it was.
fn refused(cloud: &OwnedCloudKey, table: &Table, c: &[u32], out: usize) -> Option<Refusal> {
    let mut out = vec![7; out];
    let told = cloud.view().lookup(table, c, &mut out).err();
    assert_eq!(told.is_some(), out.iter().all(|word| *word == 7));
    told
}

#[test]
fn refusals_come_in_order() {
    let (secret, cloud) = keys(134);
    let c = encrypted(&secret, 1, 2, &mut Seeded(135));
    let table = |modulus| Table::bits(modulus, |m| m > 0).unwrap();
    // N is 32: modulus 16 is the largest.
    for (modulus, refusal) in MODULI.into_iter().zip([None, None, None, None, Some(Refusal::Modulus), Some(Refusal::Modulus)]) {
        assert_eq!(refused(&cloud, &table(modulus), &c, CIPHERTEXT), refusal, "{modulus}");
        assert_eq!(cloud.view().evaluate_lookup(&table(modulus), &c).err(), refusal);
        // 2 comes before 5.
        for (c, out) in [(&c[1..], CIPHERTEXT), (&c[..], CIPHERTEXT - 1), (&c[..], CIPHERTEXT + 1), (&[][..], CIPHERTEXT), (&c[..], 0)] {
            assert_eq!(refused(&cloud, &table(modulus), c, out), Some(Refusal::Length));
        }
    }
    assert!(Refusal::Modulus.to_string().contains("divide N"));
}
