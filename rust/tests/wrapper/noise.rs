//! The drawn noise has the stated spread.

use crate::seeded::Seeded;
use egl::sets::{PRACTICE, PUBLISHED};
use egl::{Error, Noise};

/// Mean and standard deviation of drawn words, read as signed, in words.
fn measured(words: &[u32]) -> (f64, f64) {
    let values: Vec<f64> = words.iter().map(|word| f64::from(*word as i32)).collect();
    let mean = values.iter().sum::<f64>() / values.len() as f64;
    let variance = values.iter().map(|value| (value - mean).powi(2)).sum::<f64>() / values.len() as f64;
    (mean, variance.sqrt())
}

#[test]
fn spread_is_as_stated() {
    let mut seeded = Seeded(40);
    for set in PUBLISHED.iter().chain(&[PRACTICE]) {
        let mut words = vec![0; 20_001];
        let held = |stated: f64, words: &[u32]| {
            let (mean, spread) = measured(words);
            let stated = stated * 4_294_967_296.0;
            // Rounding to whole words adds a twelfth to the variance; below half a word nearly all is 0.
            let expected = if stated > 1.0 { (stated * stated + 1.0 / 12.0).sqrt() } else { return };
            assert!((spread / expected - 1.0).abs() < 0.03, "{}: {spread} instead of {expected}", set.name);
            assert!(mean.abs() < 5.0 * expected / 141.0, "{}: mean {mean} at {expected}", set.name);
        };
        set.noise.fill_level0(&mut seeded.source(), &mut words).unwrap();
        held(set.noise.level0(), &words);
        set.noise.fill_level1(&mut seeded.source(), &mut words).unwrap();
        held(set.noise.level1(), &words);
    }
}

#[test]
fn shares_within_one_and_two_spreads_are_those_of_the_bell() {
    let mut words = vec![0; 40_000];
    let noise = Noise::new(1.0e-4, 0.0).unwrap();
    noise.fill_level0(&mut Seeded(41).source(), &mut words).unwrap();
    for (spreads, share) in [(1.0, 0.6827), (2.0, 0.9545), (3.0, 0.9973)] {
        let limit = spreads * 1.0e-4 * 4_294_967_296.0;
        let inside = words.iter().filter(|word| f64::from(**word as i32).abs() < limit).count() as f64 / 40_000.0;
        assert!((inside - share).abs() < 0.01, "{inside} within {spreads}");
    }
    noise.fill_level1(&mut Seeded(42).source(), &mut words).unwrap();
    assert!(words.iter().all(|word| *word == 0));
}

#[test]
fn level_1_of_uint2_to_uint6_rounds_to_nothing() {
    // What the documentation says of these sets.
    for set in &PUBLISHED[4..] {
        let mut words = vec![0; 5_000];
        set.noise.fill_level1(&mut Seeded(43).source(), &mut words).unwrap();
        assert!(words.iter().all(|word| *word == 0), "{}", set.name);
    }
}

#[test]
fn spreads_outside_the_range_are_told() {
    for wrong in [f64::NAN, f64::INFINITY, f64::NEG_INFINITY, -1.0e-9, 0.125, 1.0] {
        assert!(matches!(Noise::new(wrong, 0.0), Err(Error::Spread)));
        assert!(matches!(Noise::new(0.0, wrong), Err(Error::Spread)));
    }
    for set in PUBLISHED.iter().chain(&[PRACTICE]) {
        assert_eq!(Noise::new(set.noise.level0(), set.noise.level1()).ok(), Some(set.noise));
    }
}
