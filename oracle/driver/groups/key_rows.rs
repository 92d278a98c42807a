//! The rows of the switching key and the lengths that it is lent in, at each set and at random ones: every row's place, lookups on both sides of each index's range, keys with
//! idle rows where none are wanted and the other way round, and the original's own key without its idle rows.

use crate::case::{Arg, Set};
use crate::compare::{Tally, SLOW};
use crate::draw;
use crate::ffi::key::*;
use crate::layout;
use crate::sizes::Sizes;
use crate::source::Source;
use super::key::routine;

/// Words of a key up to which lengths are tried.
const MOST: usize = 100_000;

/// Rows that are looked up one after another, about.
const ROWS: usize = if SLOW == 1 { 5000 } else { 1000 };

/// Random sets beside each.
const SETS: usize = if SLOW == 1 { 40 } else { 6 };

pub fn run(set: &Set, tally: &mut Tally) {
    let mut source = Source::new(crate::SEED, &format!("key rows {}", set.name));
    places(set, tally);
    lookups(set, tally);
    lengths(set, &mut source, tally);
    of_the_original(set, &mut source, tally);
    for _ in 0..SETS {
        let set = Set { name: "random", p: random(&mut source), original: None, groups: &[] };
        for name in ["key_gen_key_switching_key", "key_drop_idle_rows"] {
            let args = draw::good(&mut source, routine(name), &set.p);
            tally.check(routine(name), &set, &set.p, args);
        }
        places(&set, tally);
        lookups(&set, tally);
        lengths(&set, &mut source, tally);
    }
}

/// Parameters in range with a short switching key, BASEBIT and T anywhere in their ranges.
fn random(source: &mut Source) -> [u32; 6] {
    loop {
        let (bgbit, basebit) = (1 + source.below(24) as u32, 1 + source.below(6) as u32);
        let (l, t) = (1 + source.below((32 / bgbit) as u64) as u32, 1 + source.below((30 / basebit) as u64) as u32);
        let p = [1 + source.below(40) as u32, 1 + source.below(6) as u32, bgbit, l, basebit, t];
        if Sizes::of(&p).former_switching() <= 20_000 {
            return p;
        }
    }
}

/// The rows in order stand one after another from 0 on, and none is left out.
fn places(set: &Set, tally: &mut Tally) {
    let s = Sizes::of(&set.p);
    let step = s.switching_rows() / ROWS + 1;
    for (at, row) in layout::rows(&s).enumerate().filter(|(at, _)| at % step == 0 || at + 1 == s.switching_rows()) {
        let answer = egl_key_row_index(&set.p, &mut row.map(|x| Arg::Num(x as u64)));
        tally.same(answer == (at as u64) << 32, || format!("row {row:?} at {:?}: answer {answer:#x}, wanted place {at}", set.p));
    }
}

/// Both sides of each index's range, k = 0 above all, and indices whose low bits are those of a row.
fn lookups(set: &Set, tally: &mut Tally) {
    let s = Sizes::of(&set.p);
    let [ring, t, base] = [s.ring, s.t, s.base].map(|x| x as u64);
    for i in [0, ring - 1, ring, u64::MAX] {
        for j in [0, t - 1, t, 1 << 32] {
            for k in [0, 1, base - 1, base, 1 << 32, (1 << 32) + 1, u64::MAX] {
                let args = [i, j, k, u64::MAX].map(Arg::Num).to_vec();
                tally.check(routine("key_row_index"), set, &set.p, args);
            }
        }
    }
    if s.former_switching() > MOST {
        return;
    }
    // 2 comes before 3, and 1 before both
    for words in lengths_about(&s, s.switching()) {
        for (i, k) in [(0, 0), (0, 1), (ring - 1, base - 1), (ring, 1), (0, base)] {
            for p in [set.p, outside(set.p)] {
                let mut args = vec![Arg::Words(vec![7; words])];
                args.extend([i, t - 1, k, u64::MAX].map(Arg::Num));
                tally.check(routine("key_switching_row"), set, &p, args);
            }
        }
    }
}

/// The same but for n, which is out of range: what is lent has its length.
fn outside(p: [u32; 6]) -> [u32; 6] {
    [p[0] + 1100, p[1], p[2], p[3], p[4], p[5]]
}

/// A length, both of its neighbours by a word and by a row, none, and those of a key with idle rows and without.
fn lengths_about(s: &Sizes, len: usize) -> Vec<usize> {
    let row = s.n + 1;
    vec![len, len + 1, len - 1, len + row, len - row, 0, s.former_switching(), s.switching()]
}

/// A former key and the slice for today's, each of every length; refused calls leave that slice as it was.
fn lengths(set: &Set, source: &mut Source, tally: &mut Tally) {
    let s = Sizes::of(&set.p);
    if s.former_switching() > MOST {
        return;
    }
    for former in lengths_about(&s, s.former_switching()) {
        for out in lengths_about(&s, s.switching()) {
            // all of today's lengths for the right former one, and a part of them for the others
            if former != s.former_switching() && out != s.switching() && source.below(4) > 0 {
                continue;
            }
            let p = if source.below(4) == 0 { outside(set.p) } else { set.p };
            let args = vec![Arg::Words(source.words(former)), Arg::Words(source.words(out))];
            tally.check(routine("key_drop_idle_rows"), set, &p, args);
        }
    }
    // a key with idle rows is not made any more
    let r = routine("key_gen_key_switching_key");
    for out in lengths_about(&s, s.switching()) {
        let mut args = draw::good(source, r, &set.p);
        args[4] = Arg::Words(source.words(out));
        tally.check(r, set, &set.p, args);
    }
}

/// The original's own key, without its idle rows, is the one that the library makes of the same masks and noise, whatever stood in the idle rows.
fn of_the_original(set: &Set, source: &mut Source, tally: &mut Tally) {
    let Some(o) = set.original else { return };
    let (r, s) = (routine("key_gen_key_switching_key"), Sizes::of(&set.p));
    let (cost, budget) = ((r.cost)(&s), 20_000_000 / SLOW);
    if cost > 40 * budget {
        return;
    }
    for _ in 0..(budget / cost).clamp(1, 20) {
        let mut made = draw::good(source, r, &set.p);
        let former = o.gen_key_switching_key(made[0].w(), made[1].w(), made[2].w(), made[3].w());
        let idle = former.chunks(s.n + 1).step_by(s.base).flatten().all(|word| *word == 0);
        tally.same(idle, || format!("a row with k = 0 of the original's key at {:?} holds something", set.p));
        let answer = egl_key_gen_key_switching_key(&set.p, &mut made);
        tally.same(answer == 0, || format!("a key at {:?}: answer {answer:#x}", set.p));
        for lent in [former, layout::with_idle_rows(&set.p, made[4].w())] {
            let mut args = [Arg::Words(lent), Arg::Words(source.words(s.switching()))];
            let answer = egl_key_drop_idle_rows(&set.p, &mut args);
            tally.same(answer == 0, || format!("a former key at {:?}: answer {answer:#x}", set.p));
            tally.same_words(args[1].w(), made[4].w(), || format!("a former key at {:?} without its idle rows is not the key that is made", set.p));
        }
        tally.remark("a key of the original's without its idle rows");
    }
}
