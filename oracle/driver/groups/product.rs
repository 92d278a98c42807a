//! The product modulo X^N + 1 and 2^32 against an independent one, for every N.

use crate::case::{Arg, Kind, Routine, Set, Slot};
use crate::compare::{self, Tally};
use crate::exact;
use crate::ffi::product::*;
use crate::source::Source;

const RING: Slot = Slot::In(Kind::Words, |s| s.ring);
const OUT: Slot = Slot::Out(Kind::Words, |s| s.ring);

pub static ROUTINES: [Routine; 2] = [
    Routine {
        name: "product_poly_mul",
        slots: &[RING, RING, OUT],
        cost: |s| s.ring * s.ring,
        call: egl_product_poly_mul,
        reference: |_, a| {
            a[2] = Arg::Words(exact::product(a[0].w(), a[1].w()));
            true
        },
    },
    Routine {
        name: "product_poly_mul_add",
        slots: &[RING, RING, OUT],
        cost: |s| s.ring * s.ring,
        call: egl_product_poly_mul_add,
        reference: |_, a| {
            let sum = exact::product(a[0].w(), a[1].w()).iter().zip(a[2].w()).map(|(x, y)| x.wrapping_add(*y)).collect();
            a[2] = Arg::Words(sum);
            true
        },
    },
];

pub fn run(_sets: &[Set], tally: &mut Tally) {
    for nbit in 1..=10 {
        let p = [1 + nbit * 109, nbit, 1 + nbit, 2, 2, 9];
        let set = Set { name: "ring", p, original: None, groups: &[] };
        let n = 1usize << nbit;
        let mut source = Source::new(crate::SEED, &format!("product {nbit}"));
        for r in &ROUTINES {
            compare::run(tally, r, &set, 60_000_000, 200);
            let mut one = |a: Vec<u32>, b: Vec<u32>, source: &mut Source| {
                let out = Arg::Words((0..n).map(|_| source.next() as u32).collect());
                tally.check(r, &set, &p, vec![Arg::Words(a), Arg::Words(b), out]);
            };
            one(vec![u32::MAX; n], vec![u32::MAX; n], &mut source);
            one(vec![1 << 31; n], vec![u32::MAX; n], &mut source);
            // a single one at each place, in either factor (under an emulator, for large N, in
            // the first factor of one routine and in the second of the other)
            let both = n < 512 || compare::SLOW == 1;
            let first = r.name == "product_poly_mul";
            for place in 0..n {
                let mut unit = vec![0; n];
                unit[place] = 1;
                let other: Vec<u32> = (0..n).map(|_| source.next() as u32).collect();
                if both || first {
                    one(unit.clone(), other.clone(), &mut source);
                }
                if both || !first {
                    one(other, unit, &mut source);
                }
            }
        }
    }
}
