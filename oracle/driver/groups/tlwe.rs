//! TLWE at both levels: sums, multiples, encryption and decryption of bits, turns and messages, word for word against document 01's words and, where it
//! is at hand, the original.

use crate::case::{Arg, Kind, Routine, Set, Slot};
use crate::compare::{self, Tally};
use crate::exact;
use crate::exact_words::{self, agreed, bit_word, combined, encrypted, message_word};
use crate::ffi::tlwe::*;

const C0: Slot = Slot::In(Kind::Words, |s| s.n + 1);
const C1: Slot = Slot::In(Kind::Words, |s| s.ring + 1);
const OUT0: Slot = Slot::Out(Kind::Words, |s| s.n + 1);
const OUT1: Slot = Slot::Out(Kind::Words, |s| s.ring + 1);
const MASKS0: Slot = Slot::In(Kind::Words, |s| s.n);
const MASKS1: Slot = Slot::In(Kind::Words, |s| s.ring);
const KEY0: Slot = Slot::Key(|s| s.n);
const KEY1: Slot = Slot::Key(|s| s.ring);
const WORD: Slot = Slot::Number(32);
const VALUE: Slot = Slot::Value;

// A routine at both levels; `$a` are the arguments, `$out` the one that is written, `$o` the original and its level, and last the model's words.
macro_rules! both {
    ($name0:literal $name1:literal, $call0:ident $call1:ident, [$($s0:expr),*], [$($s1:expr),*], $out:literal, $sort:ident,
     |$o:ident, $level:ident, $a:ident| $theirs:expr, $ours:expr) => {
        [
            Routine { name: $name0, slots: &[$($s0),*], cost: |s| 40 + 4 * s.n, call: $call0, reference: |set, $a| {
                let $level = 0;
                $a[$out] = Arg::$sort(agreed(set.original.map(|$o| $theirs), $ours));
                true
            } },
            Routine { name: $name1, slots: &[$($s1),*], cost: |s| 40 + 4 * s.ring, call: $call1, reference: |set, $a| {
                let $level = 1;
                $a[$out] = Arg::$sort(agreed(set.original.map(|$o| $theirs), $ours));
                true
            } },
        ]
    };
}

const ADD: [Routine; 2] = both!("tlwe_add_lv0" "tlwe_add_lv1", egl_tlwe_add_lv0 egl_tlwe_add_lv1,
    [C0, C0, OUT0], [C1, C1, OUT1], 2, Words,
    |o, level, a| o.tlwe_add(level, a[0].w(), a[1].w()), combined(a[0].w(), 1, a[1].w(), 1));

const SUB: [Routine; 2] = both!("tlwe_sub_lv0" "tlwe_sub_lv1", egl_tlwe_sub_lv0 egl_tlwe_sub_lv1,
    [C0, C0, OUT0], [C1, C1, OUT1], 2, Words,
    |o, level, a| o.tlwe_sub(level, a[0].w(), a[1].w()), combined(a[0].w(), 1, a[1].w(), u32::MAX));

const NEG: [Routine; 2] = both!("tlwe_neg_lv0" "tlwe_neg_lv1", egl_tlwe_neg_lv0 egl_tlwe_neg_lv1,
    [C0, OUT0], [C1, OUT1], 1, Words,
    |o, level, a| o.tlwe_neg(level, a[0].w()), exact::not(a[0].w()));

const ADD_MUL: [Routine; 2] = both!("tlwe_add_mul_lv0" "tlwe_add_mul_lv1", egl_tlwe_add_mul_lv0 egl_tlwe_add_mul_lv1,
    [C0, C0, WORD, OUT0], [C1, C1, WORD, OUT1], 3, Words,
    |o, level, a| o.tlwe_add_mul(level, a[0].w(), a[1].w(), a[2].num() as u32), combined(a[0].w(), 1, a[1].w(), a[2].num() as u32));

const SUB_MUL: [Routine; 2] = both!("tlwe_sub_mul_lv0" "tlwe_sub_mul_lv1", egl_tlwe_sub_mul_lv0 egl_tlwe_sub_mul_lv1,
    [C0, C0, WORD, OUT0], [C1, C1, WORD, OUT1], 3, Words,
    |o, level, a| o.tlwe_sub_mul(level, a[0].w(), a[1].w(), a[2].num() as u32),
    combined(a[0].w(), 1, a[1].w(), (a[2].num() as u32).wrapping_neg()));

const ENCRYPT_BIT: [Routine; 2] = both!("tlwe_encrypt_bit_lv0" "tlwe_encrypt_bit_lv1",
    egl_tlwe_encrypt_bit_lv0 egl_tlwe_encrypt_bit_lv1,
    [WORD, MASKS0, WORD, KEY0, OUT0], [WORD, MASKS1, WORD, KEY1, OUT1], 4, Words,
    |o, level, a| o.tlwe_encrypt_bit(level, a[0].num() != 0, a[1].w(), a[2].num() as u32, a[3].w()),
    encrypted(bit_word(a[0].num() != 0), a[1].w(), a[2].num() as u32, a[3].w()));

const ENCRYPT_TURN: [Routine; 2] = both!("tlwe_encrypt_turn_lv0" "tlwe_encrypt_turn_lv1",
    egl_tlwe_encrypt_turn_lv0 egl_tlwe_encrypt_turn_lv1,
    [Slot::Turn, MASKS0, WORD, KEY0, OUT0], [Slot::Turn, MASKS1, WORD, KEY1, OUT1], 4, Words,
    |o, level, a| o.tlwe_encrypt_turn(level, crate::ffi::turn(&a[0]), a[1].w(), a[2].num() as u32, a[3].w()),
    encrypted(exact::torus(crate::ffi::turn(&a[0]).to_bits()), a[1].w(), a[2].num() as u32, a[3].w()));

const ENCRYPT_MESSAGE: [Routine; 2] = both!("tlwe_encrypt_message_lv0" "tlwe_encrypt_message_lv1",
    egl_tlwe_encrypt_message_lv0 egl_tlwe_encrypt_message_lv1,
    [Slot::Number(64), Slot::Modulus, MASKS0, WORD, KEY0, OUT0], [Slot::Number(64), Slot::Modulus, MASKS1, WORD, KEY1, OUT1], 5, Words,
    |o, level, a| o.tlwe_encrypt_message(level, a[0].num(), a[1].num(), a[2].w(), a[3].num() as u32, a[4].w()),
    encrypted(message_word(a[0].num(), a[1].num()), a[2].w(), a[3].num() as u32, a[4].w()));

const DECRYPT_BIT: [Routine; 2] = both!("tlwe_decrypt_bit_lv0" "tlwe_decrypt_bit_lv1",
    egl_tlwe_decrypt_bit_lv0 egl_tlwe_decrypt_bit_lv1, [C0, KEY0, VALUE], [C1, KEY1, VALUE], 2, Num,
    |o, level, a| o.tlwe_decrypt_bit(level, a[0].w(), a[1].w()) as u64, (exact_words::phase(a[0].w(), a[1].w()) as i32 >= 0) as u64);

const DECRYPT_MESSAGE: [Routine; 2] = both!("tlwe_decrypt_message_lv0" "tlwe_decrypt_message_lv1",
    egl_tlwe_decrypt_message_lv0 egl_tlwe_decrypt_message_lv1,
    [Slot::Modulus, C0, KEY0, VALUE], [Slot::Modulus, C1, KEY1, VALUE], 3, Num,
    |o, level, a| o.tlwe_decrypt_message(level, a[0].num(), a[1].w(), a[2].w()),
    exact_words::message_of(exact_words::phase(a[1].w(), a[2].w()), a[0].num()));

const fn joined() -> [Routine; 20] {
    let [a0, a1] = ADD;
    let [b0, b1] = SUB;
    let [c0, c1] = NEG;
    let [d0, d1] = ADD_MUL;
    let [e0, e1] = SUB_MUL;
    let [f0, f1] = ENCRYPT_BIT;
    let [g0, g1] = ENCRYPT_TURN;
    let [h0, h1] = ENCRYPT_MESSAGE;
    let [i0, i1] = DECRYPT_BIT;
    let [j0, j1] = DECRYPT_MESSAGE;
    [a0, a1, b0, b1, c0, c1, d0, d1, e0, e1, f0, f1, g0, g1, h0, h1, i0, i1, j0, j1]
}

pub static ROUTINES: [Routine; 20] = joined();

pub fn run(set: &Set, tally: &mut Tally) {
    for r in &ROUTINES {
        compare::run(tally, r, set, 2_000_000, 150);
    }
}
