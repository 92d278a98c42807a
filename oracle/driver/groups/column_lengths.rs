//! What a column is lent beside its words: counts that lie about the slices, lengths that fit another count, and all faults together, so that their order shows.

use crate::case::{Arg, Routine, Set};
use crate::compare::{Tally, SLOW};
use crate::draw::{other_counts, OTHER_KINDS, PAIRS};
use crate::junk;
use crate::sizes::Sizes;
use crate::source::Source;
use crate::table;

/// Words of both keys up to which a set's refusals are tried.
const MOST: usize = 1_000_000 / SLOW;

pub fn run(tally: &mut Tally, source: &mut Source, r: &Routine, set: &Set) {
    let s = Sizes::of(&set.p);
    if s.switching() + s.bootstrapping() > MOST {
        return;
    }
    let keys = junk::keys(source, set.p);
    let keys = [keys.switching, keys.bootstrapping];
    let words = s.n + 1;
    for pairs in PAIRS {
        for count in other_counts(words as u64, pairs as u64) {
            refused(tally, source, r, set, &keys, (count, 2 * pairs * words, pairs * words), 2);
        }
        // slices for one pair more or less, together and alone
        for other in [pairs + 1, pairs.saturating_sub(1)].into_iter().filter(|other| *other != pairs) {
            refused(tally, source, r, set, &keys, (pairs as u64, 2 * other * words, other * words), 2);
            refused(tally, source, r, set, &keys, (pairs as u64, 2 * other * words, pairs * words), 2);
            refused(tally, source, r, set, &keys, (pairs as u64, 2 * pairs * words, other * words), 2);
        }
        refused(tally, source, r, set, &keys, (pairs as u64, 2 * pairs * words, pairs * words), 9);
    }
    for (count, len) in wrapped(words as u64) {
        refused(tally, source, r, set, &keys, (count, 2 * len, len), 2);
    }
    together(tally, source, r, set, &keys);
}

/// Counts with the lengths of outputs that are no whole ciphertexts and yet their product modulo 2^64; the pairs' is then twice that.
fn wrapped(words: u64) -> Vec<(u64, usize)> {
    let twos = words.trailing_zeros();
    let odd = words >> twos;
    // Newton's step: each doubles the bits in which the product with `odd` is 1
    let inverse = (0..6).fold(1u64, |x, _| x.wrapping_mul(2u64.wrapping_sub(odd.wrapping_mul(x))));
    let lengths = (1..4 * odd).filter(|k| k % odd != 0).take(8);
    lengths.map(|k| (inverse.wrapping_mul(k), (k << twos) as usize)).inspect(|(count, len)| assert!(count.wrapping_mul(words) == *len as u64)).collect()
}

/// A call with this count and these lengths of pairs and outputs gets this number, whatever its kind, or for 9 with a kind that no column has.
fn refused(tally: &mut Tally, source: &mut Source, r: &Routine, set: &Set, [switching, bootstrapping]: &[Vec<u32>; 2], (count, pairs, out): (u64, usize, usize), number: u32) {
    let kinds = if number == 9 { OTHER_KINDS.to_vec() } else { vec![3 + source.below(10), source.of(&OTHER_KINDS)] };
    for kind in kinds {
        let mut words = |len: usize| Arg::Words((0..len).map(|_| source.next() as u32).collect());
        let (pairs, out) = (words(pairs), words(out));
        let args = vec![Arg::Num(kind), Arg::Num(count), pairs, Arg::Words(switching.clone()), Arg::Words(bootstrapping.clone()), out];
        assert!(table::answer(&set.p, r.slots, &args) == number as u64, "the table gives another number than {number}");
        tally.check(r, set, &set.p, args);
    }
}

/// Each choice of these faults: a parameter, each of the four lengths, the kind.
fn together(tally: &mut Tally, source: &mut Source, r: &Routine, set: &Set, keys: &[Vec<u32>; 2]) {
    let words = set.p[0] as usize + 1;
    for faults in 1..64u32 {
        let fault = |i: u32| faults >> i & 1 == 1;
        let mut p = set.p;
        if fault(0) {
            p[source.below(6) as usize] = 0;
        }
        let mut slices = [source.words(4 * words), keys[0].clone(), keys[1].clone(), source.words(2 * words)];
        for (_, slice) in slices.iter_mut().enumerate().filter(|(i, _)| fault(1 + *i as u32)) {
            let len = slice.len();
            slice.resize(source.of(&[len + 1, len - 1]), 1);
        }
        let kind = if fault(5) { source.of(&OTHER_KINDS) } else { 3 + source.below(10) };
        let args = [Arg::Num(kind), Arg::Num(2)].into_iter().chain(slices.map(Arg::Words)).collect();
        tally.check(r, set, &p, args);
    }
}
