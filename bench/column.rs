//! A column of pairs beside a call for each of them, and in two threads.

use crate::library;
use crate::measure::{least, print, table, way, Time};
use crate::{words, N, ROWS, SET};
use std::hint::black_box;

const CALLS: &str = "a call of nand for each pair";
const COLUMN: &str = "a column";
const THREADS: &str = "two columns of half the pairs, in two threads";

/// Pairs, an even number, and keys.
struct Pairs {
    set: [u32; 6],
    switching: Vec<u32>,
    key: Vec<u32>,
    pairs: Vec<u32>,
}

impl Pairs {
    /// At the 128-bit set, or with another n.
    fn new(n: u32, count: usize) -> Pairs {
        let mut set = SET;
        set[0] = n;
        let n = n as usize;
        Pairs { set, switching: words(ROWS * (n + 1), 11), key: words(n * 12 * N, 9), pairs: words(count * 2 * (n + 1), 18) }
    }

    fn calls(&self, out: &mut [u32]) {
        let words = self.set[0] as usize + 1;
        for (pair, out) in self.pairs.chunks(2 * words).zip(out.chunks_mut(words)) {
            library::nand(black_box(&self.set), black_box(&pair[..words]), black_box(&pair[words..]), black_box(&self.switching), black_box(&self.key), out);
        }
    }

    fn part(&self, pairs: &[u32], out: &mut [u32]) {
        library::column_of_nands(black_box(&self.set), black_box(pairs), black_box(&self.switching), black_box(&self.key), out);
    }

    fn column(&self, out: &mut [u32]) {
        self.part(&self.pairs, out);
    }

    fn threads(&self, out: &mut [u32]) {
        let (pairs, outs) = (self.pairs.split_at(self.pairs.len() / 2), out.split_at_mut(out.len() / 2));
        std::thread::scope(|s| {
            s.spawn(|| self.part(pairs.0, outs.0));
            s.spawn(|| self.part(pairs.1, outs.1));
        });
    }

    /// What each of the three ways gives, all alike.
    fn outs(&self) -> [Vec<u32>; 3] {
        let mut outs = [0, 1, 2].map(|word| vec![word; self.pairs.len() / 2]);
        self.calls(&mut outs[0]);
        self.column(&mut outs[1]);
        self.threads(&mut outs[2]);
        assert!(outs[0] == outs[1], "a column gives other words than its calls");
        assert!(outs[0] == outs[2], "two threads give other words than one");
        outs
    }
}

/// Gates of one step of the rotation: they take milliseconds, so what a column adds to its gates shows the more, and there are many turns.
fn added() {
    let pairs = Pairs::new(1, 8);
    let [mut o1, mut o2, _] = pairs.outs();
    let ways = vec![way(CALLS, || pairs.calls(&mut o1)), way(COLUMN, || pairs.column(&mut o2))];
    table("A column of eight pairs at the 128-bit set with n 1; bar: at most 1.01 of its calls", ways, 300, CALLS);
}

/// At the full set, by the caller's thread's own clock for the calls and the column, and by the clock on the wall for all three, since a thread's own tells nothing of two.
fn full() {
    let pairs = Pairs::new(SET[0], 8);
    let [mut o1, mut o2, mut o3] = pairs.outs();
    let mut ways = vec![way(CALLS, || pairs.calls(&mut o1)), way(COLUMN, || pairs.column(&mut o2))];
    let processors = std::thread::available_parallelism().map_or(1, |n| n.get());
    if processors > 1 {
        ways.push(way(THREADS, || pairs.threads(&mut o3)));
    } else {
        println!("A column in two threads is left out: this machine has one processor");
    }
    // a turn takes as long as twenty gates
    const ROUNDS: usize = 4;
    let times = least(&mut ways, ROUNDS);
    let lines = |clock: fn(&Time) -> f64| -> Vec<(&str, f64)> { ways.iter().zip(&times).map(|(way, time)| (way.name, clock(time))).collect() };
    print("A column of eight pairs at the 128-bit set; bar: at most 1.01 of its calls", ROUNDS, &lines(|time| time.thread)[..2], CALLS);
    print(&format!("The same by the clock on the wall, processors: {processors}; bar: two threads at most 0.55 of the calls"), ROUNDS, &lines(|time| time.wall), CALLS);
}

pub fn run() {
    added();
    full();
}
