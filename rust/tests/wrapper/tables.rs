//! Tables: their words, their test vector, and what is refused before anything is rotated.

use crate::seeded::{Seeded, OUTSIDE, POLYNOMIAL, TINY};
use egl::sets::{PRACTICE, PUBLISHED};
use egl::{lent, message_margin, message_word, Refusal, Table};

/// Every modulus of messages.
pub const MODULI: [u64; 6] = [2, 4, 8, 16, 32, 64];

/// Numbers that are no modulus.
const OTHERS: [u64; 12] = [0, 1, 3, 5, 6, 12, 63, 65, 128, 1 << 32, 1 << 63, u64::MAX];

#[test]
fn words_of_messages_and_bits() {
    for modulus in MODULI {
        let step = (1u64 << 31) / modulus;
        assert_eq!(message_margin(modulus), Ok((step / 2) as u32));
        for value in (0..2 * modulus).chain([u64::MAX - 1, u64::MAX]) {
            assert_eq!(message_word(value, modulus), Ok((value % modulus * step) as u32), "{value} of {modulus}");
        }
        for results in MODULI {
            let table = Table::messages(modulus, results, |m| 3 * m + 1).unwrap();
            let meant: Vec<u32> = (0..modulus).map(|m| ((3 * m + 1) % results * ((1 << 31) / results)) as u32).collect();
            assert_eq!((table.modulus(), table.results(), table.as_words()), (modulus, results, &meant[..]));
        }
        let odd = Table::bits(modulus, |m| m & 1 != 0).unwrap();
        let meant: Vec<u32> = (0..modulus).map(|m| [7 << 29, 1 << 29][(m & 1) as usize]).collect();
        assert_eq!((odd.modulus(), odd.results(), odd.as_words()), (modulus, 2, &meant[..]));
        let words = Table::words(modulus, meant.clone()).unwrap();
        assert_eq!(words, odd);
        let judged = words.judged_as(64).unwrap();
        assert_eq!((judged.results(), judged.as_words()), (64, &meant[..]));
    }
}

#[test]
fn a_closure_is_asked_for_each_message_in_order() {
    let mut asked = Vec::new();
    Table::messages(16, 4, |m| {
        asked.push(m);
        m
    })
    .unwrap();
    assert!(asked.into_iter().eq(0..16));
    for other in OTHERS {
        assert_eq!(Table::messages(other, 4, |_| panic!("asked")), Err(Refusal::Modulus));
        assert_eq!(Table::messages(4, other, |_| panic!("asked")), Err(Refusal::Modulus));
        assert_eq!(Table::bits(other, |_| panic!("asked")), Err(Refusal::Modulus));
        assert_eq!(Table::bits(4, |_| true).unwrap().judged_as(other), Err(Refusal::Modulus));
        assert_eq!((message_word(1, other), message_margin(other)), (Err(Refusal::Modulus), Err(Refusal::Modulus)));
        // The words' number comes first.
        assert_eq!(Table::words(other, vec![0; 2]), Err(Refusal::Length));
        if other < 200 {
            assert_eq!(Table::words(other, vec![0; other as usize]), Err(Refusal::Modulus));
        }
    }
    assert_eq!((Table::words(4, vec![0; 3]), Table::words(4, vec![0; 5])), (Err(Refusal::Length), Err(Refusal::Length)));
}

/// Coefficient i is f at (i * M + N/2) div N, and f(0) negated where that is M.
#[test]
fn a_test_vector_has_its_words() {
    let mut seeded = Seeded(110);
    for params in [TINY, PRACTICE.params, PUBLISHED[0].params] {
        let length = params.lengths().unwrap().polynomial;
        for modulus in MODULI {
            let table = Table::words(modulus, (0..modulus).map(|_| seeded.next() as u32).collect()).unwrap();
            let (f, m) = (table.as_words(), modulus as usize);
            let meant: Vec<u32> = (0..length).map(|i| f.get((i * m + length / 2) / length).copied().unwrap_or(f[0].wrapping_neg())).collect();
            let expected = if length % (2 * m) == 0 { Ok(meant) } else { Err(Refusal::Modulus) };
            assert_eq!(table.test_vector(params), expected, "modulus {modulus}, N {length}");
        }
    }
    // Negated, and not complemented: -5 is MAX - 4.
    let vector = Table::words(2, vec![5, 7]).unwrap().test_vector(TINY).unwrap();
    assert_eq!(vector, [vec![5; 8], vec![7; 16], vec![u32::MAX - 4; 8]].concat());
    assert_eq!(Table::bits(2, |m| m > 0).unwrap().test_vector(OUTSIDE), Err(Refusal::Parameter));
}

#[test]
fn a_lent_test_vector_is_refused_in_order() {
    let call = |params, modulus, table: usize, a: usize, b: usize| {
        let (table, mut a, mut b) = (vec![1; table], vec![9; a], vec![9; b]);
        let told = lent::table_test_vector(params, modulus, &table, &mut a, &mut b);
        let untouched = a.iter().chain(&b).all(|word| *word == 9);
        assert_eq!(told.is_err(), untouched);
        assert!(told.is_err() || (a.iter().all(|word| *word == 0) && b[0] == 1));
        told.err()
    };
    assert_eq!(call(TINY, 16, 16, POLYNOMIAL, POLYNOMIAL), None);
    assert_eq!(call(OUTSIDE, 3, 1, 0, 0), Some(Refusal::Parameter));
    // A table of another length than its modulus, legal or not.
    for modulus in OTHERS.into_iter().chain(MODULI) {
        assert_eq!(call(TINY, modulus, 7, POLYNOMIAL, POLYNOMIAL), Some(Refusal::Length), "{modulus}");
    }
    for (table, a, b) in [(16, POLYNOMIAL - 1, POLYNOMIAL), (16, POLYNOMIAL, POLYNOMIAL + 1), (15, POLYNOMIAL, POLYNOMIAL), (17, POLYNOMIAL, POLYNOMIAL)] {
        assert_eq!(call(TINY, 16, table, a, b), Some(Refusal::Length));
    }
    // No modulus, and two whose double does not divide N = 32.
    for modulus in [0, 1, 3, 5, 6, 12, 63, 65, 128, 32, 64] {
        assert_eq!(call(TINY, modulus, modulus as usize, POLYNOMIAL, POLYNOMIAL), Some(Refusal::Modulus), "{modulus}");
    }
}
