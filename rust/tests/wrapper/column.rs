//! Columns: every kind on every pair of bits, the words of the single gates, threads, progress, refusals.

use crate::seeded::{keys, keys_at, little, Seeded, CIPHERTEXT, TINY};
use egl::sets::PRACTICE;
use egl::{CloudKey, Gate, Kind, Params, Progress, Refusal};
use std::cell::RefCell;
use std::panic::{catch_unwind, resume_unwind, AssertUnwindSafe};
use std::process::Command;
use std::rc::Rc;
use std::time::Duration;
use std::{env, thread};

/// The words of a pair.
const PAIR: usize = 2 * CIPHERTEXT;

/// A column's kinds with the gates of the same words; for kind 8 the words are then negated.
const KINDS: [(Kind, Gate); 10] = [
    (Kind::And, Gate::And),
    (Kind::Or, Gate::Or),
    (Kind::Nand, Gate::Nand),
    (Kind::Nor, Gate::Nor),
    (Kind::Xor, Gate::Xor),
    (Kind::Xnor, Gate::Xor),
    (Kind::AndNy, Gate::AndNy),
    (Kind::AndYn, Gate::AndYn),
    (Kind::OrNy, Gate::OrNy),
    (Kind::OrYn, Gate::OrYn),
];

/// Kinds that a column does not take.
const OTHERS: [Kind; 4] = [Kind::False, Kind::True, Kind::Not, Kind::Mux];

fn words(seeded: &mut Seeded, count: usize) -> Vec<u32> {
    (0..count).map(|_| seeded.next() as u32).collect()
}

/// A column by one call of a gate for each pair.
fn one_by_one(key: CloudKey<'_>, (kind, gate): (Kind, Gate), pairs: &[u32]) -> Vec<u32> {
    let one = key.lengths().ciphertext;
    let result = |pair: &[u32]| {
        let out = key.evaluate(gate, &[&pair[..one], &pair[one..]]).unwrap();
        if kind == Kind::Xnor {
            key.evaluate(Gate::Not, &[&out]).unwrap()
        } else {
            out
        }
    };
    pairs.chunks(2 * one).flat_map(result).collect()
}

fn truth_tables(params: Params, seed: u64) {
    let (secret, cloud) = keys_at(params, seed);
    let mut seeded = Seeded(seed + 100);
    let bits = [(false, false), (true, false), (false, true), (true, true)];
    let flat: Vec<bool> = bits.iter().flat_map(|(a, b)| [*a, *b]).collect();
    for (kind, _) in KINDS {
        let pairs = secret.encrypt_bits(&flat, little(), &mut seeded.source()).unwrap();
        let out = cloud.view().evaluate_column(kind, &pairs).unwrap();
        let meant: Vec<bool> = bits.iter().map(|(a, b)| kind.meaning(*a, *b, false)).collect();
        assert_eq!(secret.decrypt_bits(&out).unwrap(), meant, "{kind:?} seed {seed}");
    }
}

#[test]
fn every_kind_decrypts_to_its_meaning() {
    assert!(KINDS.iter().map(|(kind, _)| kind.number()).eq(3..=12));
    (80..83).for_each(|seed| truth_tables(TINY, seed));
    truth_tables(PRACTICE.params, 83);
}

#[test]
fn words_are_those_of_single_gates() {
    // Honest ciphertexts under an honest key, and any words under keys of any words.
    let (secret, cloud) = keys(84);
    let mut seeded = Seeded(85);
    let lengths = TINY.lengths().unwrap();
    let (switching, bootstrapping) = (words(&mut seeded, lengths.switching_key), words(&mut seeded, lengths.bootstrapping_key));
    let any = CloudKey::new(TINY, &switching, &bootstrapping).unwrap();
    let bits = seeded.bits(6);
    let honest = secret.encrypt_bits(&bits, little(), &mut seeded.source()).unwrap();
    let wild = words(&mut seeded, 3 * PAIR);
    for (key, pairs) in [(cloud.view(), &honest), (cloud.view(), &wild), (any, &honest), (any, &wild)] {
        for both in KINDS {
            let meant = one_by_one(key, both, pairs);
            let mut out = vec![7; 3 * CIPHERTEXT];
            assert_eq!(key.column(both.0, 3, pairs, &mut out), Ok(()));
            assert_eq!(out, meant, "{both:?}");
            assert_eq!(key.evaluate_column(both.0, pairs).unwrap(), meant, "{both:?}");
        }
    }
}

#[test]
fn a_pair_changes_its_own_result_alone() {
    let (_, cloud) = keys(86);
    let mut seeded = Seeded(87);
    let pairs = words(&mut seeded, 4 * PAIR);
    let out = cloud.view().evaluate_column(Kind::Or, &pairs).unwrap();
    for pair in 0..4 {
        let mut other = pairs.clone();
        other[pair * PAIR..][..PAIR].copy_from_slice(&words(&mut seeded, PAIR));
        let changed = cloud.view().evaluate_column(Kind::Or, &other).unwrap();
        let differ: Vec<usize> = (0..4).filter(|i| out[i * CIPHERTEXT..][..CIPHERTEXT] != changed[i * CIPHERTEXT..][..CIPHERTEXT]).collect();
        assert_eq!(differ, [pair]);
    }
}

/// What `watch` is told for so many pairs.
fn rising(total: usize) -> Vec<Progress> {
    (1..=total).map(|done| Progress { done, total }).collect()
}

#[test]
fn threads_give_the_words_of_the_one_call() {
    let (_, cloud) = keys(88);
    let key = cloud.view();
    let mut seeded = Seeded(89);
    for count in [0, 1, 2, 3, 7, 20] {
        let pairs = words(&mut seeded, count * PAIR);
        for (kind, _) in KINDS {
            let mut meant = vec![7; count * CIPHERTEXT];
            key.column(kind, count, &pairs, &mut meant).unwrap();
            for threads in [0, 1, 2, 3, count + 1, usize::MAX] {
                let mut out = vec![7; count * CIPHERTEXT];
                let mut told = Vec::new();
                assert_eq!(key.column_in_threads(kind, count, &pairs, &mut out, threads, |p| told.push(p)), Ok(()));
                assert_eq!((out == meant, told), (true, rising(count)), "{kind:?}, {count} pairs, {threads} threads");
            }
        }
    }
}

#[test]
fn progress_is_told_in_the_callers_thread() {
    let (_, cloud) = keys(90);
    let pairs = words(&mut Seeded(91), 9 * PAIR);
    let mut out = vec![7; 9 * CIPHERTEXT];
    // Neither of these may leave the thread.
    let told = Rc::new(RefCell::new(Vec::new()));
    let caller = thread::current().id();
    let listen = Rc::clone(&told);
    let watch = move |progress| {
        listen.borrow_mut().push((thread::current().id() == caller, progress));
        // Leaves the next pairs to the others.
        thread::sleep(Duration::from_millis(1));
    };
    cloud.view().column_in_threads(Kind::Nor, 9, &pairs, &mut out, 3, watch).unwrap();
    assert_eq!(*told.borrow(), rising(9).into_iter().map(|progress| (true, progress)).collect::<Vec<_>>());
}

#[test]
fn other_threads_end_where_progress_panics() {
    const MANY: usize = 5_000;
    let (_, cloud) = keys(92);
    let pairs = words(&mut Seeded(93), MANY * PAIR);
    let mut out = vec![7; MANY * CIPHERTEXT];
    let run = AssertUnwindSafe(|| cloud.view().column_in_threads(Kind::Nand, MANY, &pairs, &mut out, 3, |_| resume_unwind(Box::new("enough"))));
    assert!(catch_unwind(run).is_err());
    assert!(out.ends_with(&[7; CIPHERTEXT]), "all pairs were done after the panic");
}

/// The test below, as it asks for itself in another process.
const ALONE: &str = "column::the_caller_does_all_where_no_thread_starts";

#[test]
fn the_caller_does_all_where_no_thread_starts() {
    if env::var_os("EGL_TEST_ALONE").is_none() {
        // Threads of such a process ask for more stack than there is memory.
        let mut own = Command::new(env::current_exe().unwrap());
        own.args(["--exact", ALONE, "--test-threads=1"]).env("EGL_TEST_ALONE", "1").env("RUST_MIN_STACK", (1u64 << 60).to_string());
        return match own.output() {
            // Under some emulators a program that cannot be started is not told as an error: it ends with the shell's status for that, having written nothing.
            Ok(output) if output.status.code() == Some(127) && output.stdout.is_empty() => {
                eprintln!("a process without threads is not tried, since this one cannot be started again")
            }
            Ok(output) => {
                let text = String::from_utf8_lossy(&output.stdout);
                assert!(output.status.success() && text.contains("1 passed"), "{text}{}", String::from_utf8_lossy(&output.stderr));
            }
            Err(error) => eprintln!("a process without threads is not tried, since this one cannot be started again: {error}"),
        };
    }
    assert!(thread::Builder::new().spawn(|| ()).is_err());
    let (_, cloud) = keys(94);
    let pairs = words(&mut Seeded(95), 5 * PAIR);
    let (mut out, mut told) = (vec![7; 5 * CIPHERTEXT], Vec::new());
    cloud.view().column_in_threads(Kind::Xor, 5, &pairs, &mut out, 4, |p| told.push(p)).unwrap();
    assert_eq!((out, told), (cloud.view().evaluate_column(Kind::Xor, &pairs).unwrap(), rising(5)));
}

/// What a column, one call or over threads, is answered; it is refused, has written nothing and has told nothing.
fn refused(key: CloudKey<'_>, kind: Kind, count: usize, pairs: &[u32], out_len: usize) -> Refusal {
    let mut out = vec![7; out_len];
    let refusal = key.column(kind, count, pairs, &mut out).unwrap_err();
    for threads in [0, 1, 3] {
        let answer = key.column_in_threads(kind, count, pairs, &mut out, threads, |p| panic!("told {p:?}"));
        assert_eq!(answer, Err(refusal), "{kind:?}, {count} pairs, {threads} threads");
    }
    assert_eq!(out, vec![7; out_len], "{kind:?}, {count} pairs");
    refusal
}

#[test]
fn lengths_are_2() {
    let (_, cloud) = keys(96);
    let words = words(&mut Seeded(97), 4 * PAIR);
    // A count, the words of the pairs and of the results.
    for (count, pairs, out) in [
        (3, 3 * PAIR - 1, 3 * CIPHERTEXT),
        (3, 3 * PAIR + 1, 3 * CIPHERTEXT),
        (3, 3 * PAIR, 3 * CIPHERTEXT - 1),
        (3, 3 * PAIR, 3 * CIPHERTEXT + 1),
        (2, 3 * PAIR, 3 * CIPHERTEXT),
        (4, 3 * PAIR, 3 * CIPHERTEXT),
        (3, 0, 3 * CIPHERTEXT),
        (3, 3 * PAIR, 0),
        (1, 0, 0),
        (0, 1, 0),
        (0, 0, 1),
        (0, PAIR, CIPHERTEXT),
        (usize::MAX, 3 * PAIR, 3 * CIPHERTEXT),
        (usize::MAX, 0, 0),
    ] {
        // 2 comes before 9.
        for kind in KINDS.map(|(kind, _)| kind).into_iter().chain(OTHERS) {
            assert_eq!(refused(cloud.view(), kind, count, &words[..pairs], out), Refusal::Length, "{kind:?}, {count} pairs, {pairs} and {out} words");
        }
    }
    assert_eq!(cloud.view().evaluate_column(Kind::Mux, &words[1..]), Err(Refusal::Length));
}

#[test]
fn no_count_wraps() {
    // At n 7 a ciphertext has 8 words: with 2^61 or 2^60 pairs more the words of the results, or of the pairs, are as many modulo 2^64.
    let (_, cloud) = keys_at(Params::new(7, 5, 7, 4, 3, 5), 98);
    let words = words(&mut Seeded(99), 3 * 16);
    for more in [1 << 60, 1 << 61, 1 << 62, 1 << 63, 7 << 61] {
        for count in 0..=3 {
            assert_eq!(refused(cloud.view(), Kind::And, count + more, &words[..count * 16], count * 8), Refusal::Length, "{count} and {more}");
        }
    }
}

#[test]
fn other_kinds_are_9_at_0() {
    let (_, cloud) = keys(100);
    let words = words(&mut Seeded(101), 2 * PAIR);
    for kind in OTHERS {
        for count in 0..=2 {
            let refusal = refused(cloud.view(), kind, count, &words[..count * PAIR], count * CIPHERTEXT);
            assert_eq!((refusal, refusal.number(), refusal.place()), (Refusal::CircuitGate { place: 0 }, 9, 0));
            assert!(refusal.to_string().contains("(9): a column's kind"), "{refusal}");
        }
        assert_eq!(cloud.view().evaluate_column(kind, &words), Err(Refusal::CircuitGate { place: 0 }));
    }
}

#[test]
fn no_pairs_are_done_at_once() {
    let (_, cloud) = keys(102);
    for (kind, _) in KINDS {
        assert_eq!(cloud.view().column(kind, 0, &[], &mut []), Ok(()));
        assert_eq!(cloud.view().evaluate_column(kind, &[]), Ok(Vec::new()));
        for threads in [0, 1, 3] {
            assert_eq!(cloud.view().column_in_threads(kind, 0, &[], &mut [], threads, |p| panic!("told {p:?}")), Ok(()));
        }
    }
}
