//! A column: the same gate on many pairs of encrypted bits, over several threads. Draws bits and keys from the system's random source, encrypts, evaluates with
//! progress, decrypts, and holds each result to its meaning. The status is 1 if any bit is wrong.
//!
//!     column [KIND [PAIRS [THREADS [SET]]]]
//!
//! KIND is and, or, nand, nor, xor, xnor, and_ny, and_yn, or_ny or or_yn, nand by default; xnor has its Boolean meaning here, as in a circuit. PAIRS is 12 by
//! default, THREADS 2. SET is as in the example gates; it is small by default, which is quick and gives no secrecy.

mod progress;

use egl::{sets, Kind, OwnedCloudKey, Random, SecretKeys, SystemRandom};
use std::error::Error;
use std::process::exit;
use std::time::Instant;

/// The kind of two operands with that name: the enum's, whatever its capitals and with or without `_`.
fn kind_of(name: &str) -> Option<Kind> {
    let name = name.replace('_', "");
    Kind::ALL.iter().find(|kind| kind.operands() == 2 && format!("{kind:?}").eq_ignore_ascii_case(&name)).copied()
}

/// Gives the number of wrong bits.
fn run(kind: Kind, count: usize, threads: usize, set: sets::Set) -> Result<usize, Box<dyn Error>> {
    let mut random = SystemRandom::open()?;
    eprintln!("making the keys at set {}", set.name);
    let secret = SecretKeys::draw(set.params, &mut random)?;
    let cloud = OwnedCloudKey::draw(&secret, set.noise, &mut random)?;

    let mut drawn = vec![0; count];
    random.fill(&mut drawn)?;
    let bits: Vec<[bool; 2]> = drawn.iter().map(|byte| [byte & 1 != 0, byte & 2 != 0]).collect();
    let pairs = secret.encrypt_bits(&bits.concat(), set.noise, &mut random)?;
    let mut out = vec![0; count * cloud.view().lengths().ciphertext];

    let mut line = progress::Line::start("pairs", count);
    let start = Instant::now();
    cloud.view().column_in_threads(kind, count, &pairs, &mut out, threads, |p| line.at(p.done, "evaluating"))?;
    let spent = start.elapsed().as_secs_f64();
    line.clear();

    let got = secret.decrypt_bits(&out)?;
    let wrong = bits.iter().zip(&got).filter(|([a, b], bit)| kind.meaning(*a, *b, false) != **bit).count();
    let each = spent / count.max(1) as f64;
    println!("{kind:?} on {count} pairs, threads {threads}, set {}: {spent:.2} s, {each:.4} s a pair", set.name);
    println!("{wrong} of {count} bits wrong");
    Ok(wrong)
}

fn main() {
    let args: Vec<String> = std::env::args().skip(1).collect();
    let kind = kind_of(args.first().map_or("nand", String::as_str));
    let number = |at: usize, default: usize| args.get(at).map_or(Ok(default), |text| text.parse());
    let name = match args.get(3).map_or("small", String::as_str) {
        "small" => "practice",
        name => name,
    };
    let outcome = match (kind, number(1, 12), number(2, 2), sets::by_name(name)) {
        (Some(kind), Ok(count), Ok(threads), Some(set)) if args.len() <= 4 => run(kind, count, threads, set),
        _ => {
            eprintln!("column [KIND [PAIRS [THREADS [80|110|128|uint1..uint6|small]]]], KIND and, or, nand, nor, xor, xnor, and_ny, and_yn, or_ny or or_yn");
            exit(2)
        }
    };
    match outcome {
        Ok(0) => {}
        Ok(_) => exit(1),
        Err(error) => {
            eprintln!("column: {error}");
            exit(3)
        }
    }
}
