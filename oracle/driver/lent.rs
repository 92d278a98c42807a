//! A call's slices as the library sees them: copies between guard bytes. So it shows where a call writes beside a slice, or into one that is only read.

use crate::case::Arg;

/// Bytes in front of a slice and behind it, and what they hold.
const GUARD: usize = 64;
const MARK: u8 = 0xA5;

/// The answer in place of the library's where a call wrote what it may not write: no number of the table.
const BESIDE: u64 = u64::MAX;

struct Slice<'a> {
    own: &'a mut [u8],
    /// The guard, the slice's bytes, the guard; in words of 64 bits, so that any element is aligned.
    copy: Vec<u64>,
    written: bool,
}

impl<'a> Slice<'a> {
    fn new(own: &'a mut [u8], written: bool) -> Slice<'a> {
        let copy = vec![0; (2 * GUARD + own.len()).div_ceil(8)];
        let mut out = Slice { own, copy, written };
        let ([before, copy, behind], own) = out.parts();
        before.fill(MARK);
        copy.copy_from_slice(own);
        behind.fill(MARK);
        out
    }

    /// The guard, the bytes that are lent, the guard behind them; and those that they were copied from.
    fn parts(&mut self) -> ([&mut [u8]; 3], &mut [u8]) {
        // SAFETY: these are the vector's own bytes, and a byte may hold anything.
        let all = unsafe { std::slice::from_raw_parts_mut(self.copy.as_mut_ptr().cast(), 8 * self.copy.len()) };
        let (before, rest) = all.split_at_mut(GUARD);
        let (copy, behind) = rest.split_at_mut(self.own.len());
        ([before, copy, behind], self.own)
    }

    /// Takes written bytes back; whether all others are as they were.
    fn back(mut self) -> bool {
        let written = self.written;
        let ([before, copy, behind], own) = self.parts();
        if written {
            own.copy_from_slice(copy);
        }
        copy == own && before.iter().chain(behind.iter()).all(|byte| *byte == MARK)
    }
}

/// The arguments of one call, in order.
pub struct Call<'a> {
    args: std::slice::IterMut<'a, Arg>,
    slices: Vec<Slice<'a>>,
}

impl<'a> Call<'a> {
    pub fn of(args: &'a mut [Arg]) -> Call<'a> {
        Call { args: args.iter_mut(), slices: Vec::new() }
    }

    /// The next argument, one that is passed as it is.
    pub fn next(&mut self) -> &Arg {
        self.args.next().expect("an argument")
    }

    /// The next argument, a slice: where it starts, and how many elements it has.
    pub fn slice(&mut self, written: bool) -> (*mut u8, usize) {
        let arg = self.args.next().expect("a slice");
        let len = arg.len();
        let mut slice = Slice::new(arg.raw(), written);
        let start = slice.parts().0[1].as_mut_ptr();
        self.slices.push(slice);
        (start, len)
    }

    /// After the call: what it wrote is in the arguments. Gives its answer, or `BESIDE`.
    pub fn back(self, answer: u64) -> u64 {
        let kept = self.slices.into_iter().fold(true, |kept, slice| slice.back() && kept);
        if kept { answer } else { BESIDE }
    }
}
