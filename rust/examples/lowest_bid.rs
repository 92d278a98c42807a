//! Two sealed bids: finds the lower price without opening either. Builds the comparator, encrypts both prices, runs the circuit gate by gate with
//! progress over its rotations, decrypts which bid is lower and the lower price, and holds them to the plain numbers. The status is 1 if they differ.
//!
//!     lowest_bid [FIRST SECOND [SET [drift]]]
//!
//! Prices are from 0 to 255. SET is as in the example gates; it is small by default, which is quick and gives no secrecy. With `drift` the run is measured by
//! whoever holds the secret keys: a line for each gate tells by how many bits the drift brought into its rotation stays below an eighth of a turn, and the
//! last one the least of these margins. Where one is outside, the bits are not guaranteed: that is said, and the status is 1.

mod progress;

use egl::{archive_version, margin, sets, Builder, Circuit, CloudKey, DriftRun, GateDrift, Kind, OwnedCloudKey, Refusal, Run, SecretKeys, SystemRandom, INTERFACE_VERSION};
use std::error::Error;
use std::process::exit;

/// Bits of a price.
const WIDTH: usize = 8;

/// Inputs: both prices, low bit first. Outputs: whether the first is strictly lower, then the lower price, low bit first.
fn comparator() -> Result<Circuit, Refusal> {
    let mut builder = Builder::new(2 * WIDTH);
    let bits: Vec<_> = (0..WIDTH).map(|i| (builder.input(i), builder.input(WIDTH + i))).collect();
    // From the lowest bit up: where the bits differ, the first is lower if the second's bit is 1; where not, the lower bits decide.
    let mut lower = builder.gate(Kind::False, &[]);
    for (first, second) in &bits {
        let differ = builder.gate(Kind::Xor, &[*first, *second]);
        lower = builder.gate(Kind::Mux, &[differ, *second, lower]);
    }
    builder.output(lower);
    for (first, second) in &bits {
        let bit = builder.gate(Kind::Mux, &[lower, *first, *second]);
        builder.output(bit);
    }
    builder.build()
}

fn low_bit_first(price: u8) -> impl Iterator<Item = bool> {
    (0..WIDTH).map(move |i| price >> i & 1 != 0)
}

fn price(bits: &[bool]) -> u8 {
    bits.iter().rev().fold(0, |price, bit| price << 1 | u8::from(*bit))
}

/// The outputs of a run gate by gate.
fn compared(circuit: &Circuit, key: CloudKey<'_>, ins: &[u32]) -> Result<Vec<u32>, Refusal> {
    let mut line = progress::Line::start("rotations", circuit.work()? as usize);
    let out = Run::start(circuit, key, ins)?.finish(|p| line.at(circuit.work_to(p.done) as usize, "comparing"))?;
    line.clear();
    Ok(out)
}

/// What a gate's line tells: its margin and its wire's drift.
fn told(circuit: &Circuit, gate: GateDrift) -> String {
    let kind = circuit.kind(gate.gate).map_or(String::new(), |kind| format!("{kind:?}"));
    let brought = match gate.worst {
        Some(worst) => format!("brought in {worst:>11}, margin {:>2} bits{}", margin(worst), if egl::inside(worst) { "" } else { ", OUTSIDE" }),
        None => "no rotation".to_string(),
    };
    format!("gate {:>3} {kind:<5}: {brought}; its drift {}", gate.gate, gate.drift)
}

/// The same with drift: the outputs, or nothing where a drift is outside.
fn measured(circuit: &Circuit, key: CloudKey<'_>, secret: &SecretKeys, ins: &[u32], bits: &[bool]) -> Result<Option<Vec<u32>>, Refusal> {
    let mut line = progress::Line::start("rotations", circuit.work()? as usize);
    let run = DriftRun::start(circuit, key, secret, ins, bits)?.finish(|gate| {
        line.clear();
        println!("{}", told(circuit, gate));
        line.at(circuit.work_to(gate.progress.done) as usize, "comparing");
    })?;
    line.clear();
    let all = run.inside() == Some(true);
    let least = run.margin().map_or("no rotation".to_string(), |bits| format!("{bits} bits"));
    println!("margin of the run: {least}, {}", if all { "all inside" } else { "OUTSIDE" });
    Ok(if all { Some(run.outputs()?) } else { None })
}

fn run(first: u8, second: u8, set: sets::Set, drift: bool) -> Result<bool, Box<dyn Error>> {
    if archive_version() != INTERFACE_VERSION {
        return Err(format!("the archive has version {} of the interface, and this program is written for {INTERFACE_VERSION}", archive_version()).into());
    }
    let circuit = comparator()?;
    println!("circuit: {} inputs, {} gates, work {}", circuit.inputs(), circuit.gates(), circuit.work()?);
    let bits: Vec<bool> = low_bit_first(first).chain(low_bit_first(second)).collect();
    let meant = circuit.run_plain(&bits)?;

    let mut random = SystemRandom::open()?;
    let secret = SecretKeys::draw(set.params, &mut random)?;
    eprintln!("making the keys at set {}", set.name);
    let cloud = OwnedCloudKey::draw(&secret, set.noise, &mut random)?;
    let ins = secret.encrypt_bits(&bits, set.noise, &mut random)?;
    let out = if drift { measured(&circuit, cloud.view(), &secret, &ins, &bits)? } else { Some(compared(&circuit, cloud.view(), &ins)?) };
    let out = match out {
        Some(out) => out,
        None => {
            println!("OUTSIDE: a drift is an eighth of a turn or more, so the bits of this run are not guaranteed");
            return Ok(false);
        }
    };

    let got = secret.decrypt_bits(&out)?;
    let lower = got.first().copied().unwrap_or_default();
    let lowest = price(got.get(1..).unwrap_or_default());
    println!("bids {first} and {second}: the {} bid wins at {lowest}", if lower { "first" } else { "second" });
    let right = got == meant && lower == (first < second) && lowest == first.min(second);
    if !right {
        println!("WRONG: the encrypted run differs from the plain numbers");
    }
    Ok(right)
}

fn main() {
    let args: Vec<String> = std::env::args().skip(1).collect();
    let bid = |at: usize, default: u8| args.get(at).map_or(Ok(default), |text| text.parse());
    let name = match args.get(2).map_or("small", String::as_str) {
        "small" => "practice",
        name => name,
    };
    let drift = match args.get(3).map(String::as_str) {
        None => Some(false),
        Some("drift") => Some(true),
        Some(_) => None,
    };
    let outcome = match (bid(0, 137), bid(1, 141), sets::by_name(name), drift) {
        (Ok(first), Ok(second), Some(set), Some(drift)) if args.len() != 1 && args.len() <= 4 => run(first, second, set, drift),
        _ => {
            eprintln!("lowest_bid [FIRST SECOND [80|110|128|uint1..uint6|small [drift]]], prices from 0 to 255");
            exit(2)
        }
    };
    match outcome {
        Ok(true) => {}
        Ok(false) => exit(1),
        Err(error) => {
            eprintln!("lowest_bid: {error}");
            exit(3)
        }
    }
}
