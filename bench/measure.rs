//! Times of several ways to do one thing, measured in turns so that a busy machine slows
//! all of them alike; the least time of each is kept. A long call shares its processor while it lasts, so there the time that the thread itself ran is taken.

use std::time::Instant;

pub struct Way<'a> {
    pub name: &'static str,
    pub call: Box<dyn FnMut() + 'a>,
}

pub fn way<'a>(name: &'static str, call: impl FnMut() + 'a) -> Way<'a> {
    Way { name, call: Box::new(call) }
}

unsafe extern "C" {
    fn clock_gettime(clock: i32, seconds_and_nanoseconds: *mut [i64; 2]) -> i32;
}

/// The seconds that this thread has run: Linux's clock 3.
fn ran() -> f64 {
    let mut time = [0; 2];
    assert_eq!(unsafe { clock_gettime(3, &mut time) }, 0, "no clock of the thread");
    time[0] as f64 + time[1] as f64 * 1e-9
}

/// What a call took, in microseconds: by its thread's clock where it is long, and by the clock on the wall, which alone tells of a call that runs on several threads.
#[derive(Clone, Copy)]
pub struct Time {
    pub thread: f64,
    pub wall: f64,
}

fn time(call: &mut dyn FnMut()) -> Time {
    let before = ran();
    let start = Instant::now();
    call();
    let wall = start.elapsed().as_secs_f64();
    // reading the thread's clock takes a part of a microsecond, which a short call would show
    let thread = if wall < 0.01 { wall } else { ran() - before };
    Time { thread: thread * 1e6, wall: wall * 1e6 }
}

/// The least time of one call of each way by either clock, over so many rounds.
pub fn least(ways: &mut [Way], rounds: usize) -> Vec<Time> {
    let mut times = vec![Time { thread: f64::INFINITY, wall: f64::INFINITY }; ways.len()];
    for _ in 0..rounds {
        for (least, way) in times.iter_mut().zip(ways.iter_mut()) {
            let time = time(&mut way.call);
            *least = Time { thread: least.thread.min(time.thread), wall: least.wall.min(time.wall) };
        }
    }
    times
}

/// Prints a table: each way's time, and as a multiple of the way called `unit`.
pub fn print(title: &str, rounds: usize, lines: &[(&str, f64)], unit: &str) {
    let base = lines.iter().find(|line| line.0 == unit).expect("a way of that name").1;
    println!("{title} ({rounds} rounds)");
    for (name, time) in lines {
        println!("  {name:<44} {time:>12.2} us   {:>7.3}", time / base);
    }
}

/// Measures by the thread's clock and prints.
pub fn table(title: &str, mut ways: Vec<Way>, rounds: usize, unit: &str) {
    let times = least(&mut ways, rounds);
    let lines: Vec<_> = ways.iter().zip(times).map(|(way, time)| (way.name, time.thread)).collect();
    print(title, rounds, &lines, unit);
}
