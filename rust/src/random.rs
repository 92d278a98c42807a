//! Where random bytes come from.

use std::fs::File;
use std::io::{self, Read};

/// A source of random bytes, given by the caller. A closure `FnMut(&mut [u8])` that fills what it is handed is one too.
///
/// Keys and ciphertexts are as secret as these bytes: a product gives a generator that is fit for the purpose. A closure over a fixed seed
/// serves tests, whose runs can then be repeated.
pub trait Random {
    /// Fills all of `bytes`, or tells why it could not.
    fn fill(&mut self, bytes: &mut [u8]) -> io::Result<()>;
}

impl<F: FnMut(&mut [u8])> Random for F {
    fn fill(&mut self, bytes: &mut [u8]) -> io::Result<()> {
        self(bytes);
        Ok(())
    }
}

/// The system's own source, `/dev/urandom`.
#[derive(Debug)]
pub struct SystemRandom {
    source: File,
}

impl SystemRandom {
    /// Opens it.
    pub fn open() -> io::Result<SystemRandom> {
        File::open("/dev/urandom").map(|source| SystemRandom { source })
    }
}

impl Random for SystemRandom {
    fn fill(&mut self, bytes: &mut [u8]) -> io::Result<()> {
        self.source.read_exact(bytes)
    }
}

/// Bytes asked for at a time: few calls of the system, and little memory.
const PIECE: usize = 8192;

/// Uniform words.
pub(crate) fn fill_words<R: Random + ?Sized>(random: &mut R, words: &mut [u32]) -> io::Result<()> {
    let mut bytes = [0u8; PIECE];
    for part in words.chunks_mut(PIECE / 4) {
        let length = part.len().saturating_mul(4);
        let drawn = bytes.get_mut(..length).unwrap_or_default();
        random.fill(drawn)?;
        for (word, four) in part.iter_mut().zip(drawn.chunks_exact(4)) {
            *word = four.iter().rev().fold(0, |word, byte| word << 8 | u32::from(*byte));
        }
    }
    Ok(())
}

/// Uniform bits, a word each: a secret key.
pub(crate) fn fill_bits<R: Random + ?Sized>(random: &mut R, words: &mut [u32]) -> io::Result<()> {
    fill_words(random, words)?;
    words.iter_mut().for_each(|word| *word &= 1);
    Ok(())
}
