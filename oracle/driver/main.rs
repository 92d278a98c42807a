//! Compares the proved library with the original, group by group and set by set.
//!   driver                     runs every group, one line each; status 1 on any difference, and where a function never did its work
//!   driver sample GROUP COUNT  lists COUNT cases of each of the group's routines, one a line

#[cfg(bridge)]
mod bridge;
#[cfg(group_bristol)]
mod bristol;
#[cfg(group_bristol)]
mod bristol_texts;
mod case;
mod circuits;
mod compare;
mod draw;
#[cfg(group_drift_report)]
mod drift_report;
mod exact;
mod exact_run;
mod exact_words;
mod ffi;
mod groups;
mod honest;
mod junk;
mod layout;
#[cfg(not(bridge))]
mod lent;
#[cfg(group_tables)]
mod lookup_tables;
mod reckoned_run;
mod reckoning;
mod sizes;
mod source;
mod table;

#[allow(unused_extern_crates)]
mod list {
    include!(env!("ORACLE_SETS"));
}

use case::Set;
use compare::Tally;
use groups::{Group, Run};
use std::collections::BTreeSet;
use std::sync::atomic::{AtomicUsize, Ordering};
use std::sync::Mutex;

/// Every case follows from this number and the names of the routine and the set.
pub const SEED: u64 = 0x5EED_2026;

struct Job<'a> {
    group: &'a Group,
    set: Option<&'a Set>,
}

fn run(job: &Job, sets: &[Set]) -> Tally {
    let mut tally = Tally::default();
    match (&job.group.run, job.set) {
        (Run::Once(f), _) => f(sets, &mut tally),
        (Run::EachSet(f), Some(set)) => f(set, &mut tally),
        _ => {}
    }
    tally
}

fn lines(job: &Job, tally: &Tally, seconds: f64) -> String {
    let on = job.set.map_or(String::new(), |s| format!(" {} {:?}", s.name, s.p));
    let mut out = format!(
        "{}{on}: {} comparisons ({} of them refusals), {} words, {} differences, {seconds:.1} s",
        job.group.name, tally.cases, tally.refusals.values().sum::<u64>(), tally.words, tally.differences
    );
    for note in &tally.notes {
        out += &format!("\n    {note}");
    }
    for (what, times) in &tally.remarks {
        out += &format!("\n    ({times} times: {what})");
    }
    out
}

/// Every job, in the order of the lines to be printed.
fn jobs<'a>(groups: &'a [Group], sets: &'a [Set]) -> Vec<Job<'a>> {
    let mut jobs = Vec::new();
    for group in groups {
        match group.run {
            Run::Once(_) => jobs.push(Job { group, set: None }),
            Run::EachSet(_) => {
                let own = sets.iter().filter(|s| s.groups.is_empty() || s.groups.contains(&group.name));
                jobs.extend(own.map(|s| Job { group, set: Some(s) }))
            }
        }
    }
    jobs
}

/// Runs the jobs on two threads, those with the largest keys first; prints a line for each
/// and the sums of each group, and gives the number of differences and the functions that did their work.
fn run_all(groups: &[Group], sets: &[Set]) -> (u64, BTreeSet<&'static str>) {
    let jobs = jobs(groups, sets);
    let mut order: Vec<usize> = (0..jobs.len()).collect();
    order.sort_by_key(|&i| std::cmp::Reverse(jobs[i].set.map_or(0, |s| s.p[0] << s.p[1])));
    let next = AtomicUsize::new(0);
    let done = Mutex::new(Vec::new());
    let called = Mutex::new(BTreeSet::new());
    let work = || loop {
        let at = next.fetch_add(1, Ordering::SeqCst);
        let Some(&i) = order.get(at) else { return called.lock().unwrap().extend(ffi::done()) };
        let start = std::time::Instant::now();
        let tally = run(&jobs[i], sets);
        println!("{}", lines(&jobs[i], &tally, start.elapsed().as_secs_f64()));
        done.lock().unwrap().push((i, tally));
    };
    std::thread::scope(|s| {
        for _ in 0..2 {
            // the original keeps whole keys on the stack
            std::thread::Builder::new().stack_size(256 << 20).spawn_scoped(s, work).unwrap();
        }
    });
    let done: Vec<(usize, Tally)> = done.into_inner().unwrap();
    assert!(done.len() == jobs.len(), "a job did not end");
    for group in groups {
        let of: Vec<&Tally> = done.iter().filter(|d| jobs[d.0].group.name == group.name).map(|d| &d.1).collect();
        let sum = |f: fn(&Tally) -> u64| of.iter().map(|t| f(t)).sum::<u64>();
        let (cases, mut met) = (sum(|t| t.cases), Tally::default());
        of.iter().flat_map(|t| &t.remarks).for_each(|(what, times)| met.remarks(what, *times));
        of.iter().flat_map(|t| &t.refusals).for_each(|(number, times)| *met.refusals.entry(*number).or_default() += times);
        let by_number: Vec<String> = met.refusals.iter().map(|(number, times)| format!("{times} with {number}")).collect();
        let refusals = if by_number.is_empty() { "no refusals".to_string() } else { format!("refusals {}", by_number.join(", ")) };
        let remarks: String = met.remarks.iter().map(|(what, times)| format!(" ({times} times: {what})")).collect();
        println!("{}: {cases} comparisons in all, {refusals}; {} differences{remarks}", group.name, sum(|t| t.differences));
    }
    (done.iter().map(|d| d.1.differences).sum(), called.into_inner().unwrap())
}

/// The functions of the groups that were asked for, as the builder names them, less those that did their work.
fn idle(called: &BTreeSet<&str>) -> Vec<String> {
    let names = std::env::var("ORACLE_FUNCTIONS").expect("the names of the functions");
    names.split(',').filter(|name| !called.contains(name)).map(String::from).collect()
}

/// Lists cases of every routine of a group, over the sets in turn, and some refusals.
fn sample(groups: &[Group], sets: &[Set], group: &str, count: usize) {
    let Some(group) = groups.iter().find(|g| g.name == group) else {
        eprintln!("no group {group} in this archive");
        std::process::exit(1)
    };
    for r in group.routines {
        let mut tally = Tally { list: Some(Vec::new()), ..Tally::default() };
        let mut source = source::Source::new(SEED, &format!("sample {}", r.name));
        // programs that replay a list use small sets
        let fit: Vec<&Set> = sets.iter().filter(|s| s.p[0] <= 64 && s.p[1] <= 6 && (r.cost)(&sizes::Sizes::of(&s.p)) < 10_000_000).collect();
        for i in 0..count {
            let Some(set) = fit.get(i % fit.len().max(1)) else { break };
            let (p, args) = if i % 4 == 3 { draw::faulty(&mut source, r) } else { (set.p, draw::good(&mut source, r, &set.p)) };
            if p == set.p || table::number(&p, r.slots, &args) != 0 {
                tally.check(r, set, &p, args);
            }
        }
        for line in tally.list.unwrap() {
            println!("{line}");
        }
    }
}

fn main() {
    let sets = list::sets();
    let groups = groups::groups();
    let args: Vec<String> = std::env::args().skip(1).collect();
    match args.iter().map(String::as_str).collect::<Vec<_>>()[..] {
        [] => {
            let start = std::time::Instant::now();
            let (differences, called) = run_all(&groups, &sets);
            let idle = idle(&called);
            idle.iter().for_each(|name| println!("{name} was never seen to do its work"));
            println!(
                "oracle: {} groups, {} functions, {differences} differences, {:.0} s",
                groups.len(),
                called.len(),
                start.elapsed().as_secs_f64()
            );
            std::process::exit((differences != 0 || !idle.is_empty()) as i32)
        }
        ["sample", group, count] => sample(&groups, &sets, group, count.parse().unwrap_or(10)),
        _ => {
            eprintln!("driver [sample GROUP COUNT]");
            std::process::exit(2)
        }
    }
}
