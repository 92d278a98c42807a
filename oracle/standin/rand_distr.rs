//! Stands in for the crate of distributions: a normal sample is a lent noise word w as the
//! double w / 2^32, which is exact, so that the original's rounding gives w again.

use std::cell::RefCell;
use std::collections::VecDeque;

thread_local!(static LENT: RefCell<VecDeque<u32>> = const { RefCell::new(VecDeque::new()) });

/// Lends the noise words of the coming samples, in order.
pub fn lend(words: &[u32]) {
    LENT.with(|q| *q.borrow_mut() = words.iter().copied().collect());
}

/// How many lent words have not been drawn.
pub fn left() -> usize {
    LENT.with(|q| q.borrow().len())
}

pub struct Normal<F> {
    kept: std::marker::PhantomData<F>,
}

impl Normal<f64> {
    pub fn new(_mean: f64, _deviation: f64) -> Result<Normal<f64>, ()> {
        Ok(Normal { kept: std::marker::PhantomData })
    }
}

pub trait Distribution<T> {
    fn sample<R>(&self, rng: &mut R) -> T;
}

impl Distribution<f64> for Normal<f64> {
    fn sample<R>(&self, _rng: &mut R) -> f64 {
        let w = LENT.with(|q| q.borrow_mut().pop_front().expect("more noise drawn than lent"));
        w as f64 / 4294967296.0
    }
}
