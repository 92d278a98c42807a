//! Stands in for the generator crate: every draw is taken from words lent beforehand,
//! so that the original uses the same masks as the library under test.

use std::cell::RefCell;
use std::collections::VecDeque;

thread_local!(static LENT: RefCell<VecDeque<u32>> = const { RefCell::new(VecDeque::new()) });

/// Lends the words of the coming draws, in order.
pub fn lend(words: &[u32]) {
    LENT.with(|q| *q.borrow_mut() = words.iter().copied().collect());
}

/// How many lent words have not been drawn.
pub fn left() -> usize {
    LENT.with(|q| q.borrow().len())
}

fn draw() -> u32 {
    LENT.with(|q| q.borrow_mut().pop_front().expect("more masks drawn than lent"))
}

pub trait Drawn {
    fn of(word: u32) -> Self;
}

impl Drawn for u32 {
    fn of(word: u32) -> u32 {
        word
    }
}

impl Drawn for bool {
    fn of(word: u32) -> bool {
        word != 0
    }
}

pub trait Rng {
    fn random<T: Drawn>(&mut self) -> T {
        T::of(draw())
    }
}

pub mod rngs {
    pub struct ThreadRng;
    impl super::Rng for ThreadRng {}
}

pub fn rng() -> rngs::ThreadRng {
    rngs::ThreadRng
}
