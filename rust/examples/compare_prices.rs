//! Two sealed prices compared digit by digit with tables: whether the first is lower, without opening either. Then the same by gates, so that both ways' rotations and times stand beside
//! each other. The status is 1 if a result is wrong, or if a drift is outside its margin.
//!
//!     compare_prices [FIRST SECOND [SET]]
//!
//! Prices are from 0 to 255, four digits of base 4. SET is as in the example gates; it is small by default, which is quick and gives no secrecy.
//!
//! One table serves all. Digits a and b are messages of modulus 8, and 3 + a - b is from 0 to 6: below 3 where a is lower, 3 where they are alike. The table makes 0, 1 and 2 of that, less,
//! equal and greater. Of such results of a high and a low digit, 2 * high + low is again from 0 to 6, below 3 where both together are lower, and 3 where both are alike: the same table joins them. The
//! last one gives a bit for gates.
//!
//! Modulus 8 leaves a margin of 2^27. Whether a set holds it is reckoned first (examples/reckoned): uint3 to uint6 do, where it is more than six times what a joined digit's drift spreads by;
//! 80, 110, 128, uint1 and uint2 do not, for there a lookup's result itself spreads by more than 2^25, and a joined digit brings in more than twice that.

mod progress;
mod reckoned;

use egl::{
    archive_version, message_margin, sets, Builder, Circuit, CloudKey, Kind, LookupDrift, OwnedCloudKey, Refusal, Run, SecretKeys, SystemRandom, Table,
    INTERFACE_VERSION,
};
use std::error::Error;
use std::process::exit;
use std::time::Instant;

/// Bits of a price, and its digits of base 4.
const WIDTH: usize = 8;
const DIGITS: usize = WIDTH / 2;
/// A lookup for each digit, and one for each digit that is joined to those above it.
const LOOKUPS: usize = 2 * DIGITS - 1;
/// The modulus of digits, of their sums and of what the table gives.
const MODULUS: u64 = 8;
/// The sum that stands for equality.
const ALIKE: u64 = 3;
/// A margin that is fewer times the spread than this is too small.
const ENOUGH: f64 = 5.0;

/// 0 for less, 1 for equal, 2 for greater.
fn order(sum: u64) -> u64 {
    u64::from(sum >= ALIKE) + u64::from(sum > ALIKE)
}

/// The digits of a price, the highest first.
fn digits(price: u8) -> impl Iterator<Item = u64> {
    (0..DIGITS).rev().map(move |place| u64::from(price >> (2 * place) & 3))
}

/// The message of each lookup in turn, on plain numbers: what a measured run is told that its ciphertexts carry.
fn plain_messages(first: u8, second: u8) -> Vec<u64> {
    let mut messages: Vec<u64> = digits(first).zip(digits(second)).map(|(a, b)| ALIKE + a - b).collect();
    let mut orders: Vec<u64> = messages.iter().map(|sum| order(*sum)).collect();
    let mut high = orders.remove(0);
    for low in orders {
        messages.push(2 * high + low);
        high = order(2 * high + low);
    }
    messages
}

/// Whether the first price is lower, as a bit for gates: the digits are ciphertexts, the highest first, and `look` does each lookup.
fn first_is_lower(
    key: CloudKey<'_>,
    first: &[Vec<u32>],
    second: &[Vec<u32>],
    mut look: impl FnMut(&Table, &[u32]) -> Result<Vec<u32>, Refusal>,
) -> Result<Vec<u32>, Refusal> {
    let order = Table::messages(MODULUS, MODULUS, order)?;
    let lower = Table::bits(MODULUS, |sum| sum < ALIKE)?;
    let mut orders = Vec::new();
    for (a, b) in first.iter().zip(second) {
        orders.push(look(&order, &key.evaluate_sum(MODULUS, ALIKE, &[(1, a), (-1, b)])?)?);
    }
    let mut high = orders.remove(0);
    for (at, low) in orders.iter().enumerate() {
        let table = if at + 1 == orders.len() { &lower } else { &order };
        high = look(table, &key.evaluate_sum(MODULUS, 0, &[(2, &high), (1, low)])?)?;
    }
    Ok(high)
}

/// The same question as a circuit: both prices, low bit first, and whether the first is lower.
fn comparator() -> Result<Circuit, Refusal> {
    let mut builder = Builder::new(2 * WIDTH);
    let mut bits = (0..WIDTH).map(|i| (builder.input(i), builder.input(WIDTH + i))).collect::<Vec<_>>().into_iter();
    // The lowest bit decides by itself. From there up: where the bits differ, the first is lower if the second's bit is 1; where not, the lower bits decide.
    let mut lower = bits.next().map(|(first, second)| builder.gate(Kind::AndNy, &[first, second]));
    for (first, second) in bits {
        let differ = builder.gate(Kind::Xor, &[first, second]);
        lower = lower.map(|lower| builder.gate(Kind::Mux, &[differ, second, lower]));
    }
    lower.into_iter().for_each(|wire| builder.output(wire));
    builder.build()
}

/// Says how the set's margins stand before anything is run.
fn forecast(set: sets::Set) -> Result<(), Refusal> {
    let spreads = reckoned::Spreads::of(set);
    let margin = f64::from(message_margin(MODULUS)?);
    // A digit's sum has two fresh ciphertexts; a joined one twice a result, whose square counts four, and another.
    let [digit, joined] = [spreads.brought(2.0, 0.0), spreads.brought(0.0, 5.0)];
    println!(
        "reckoned: rounding spreads by 2^{:.1}, a result by 2^{:.1}; the margin 2^{:.0} is {:.1} times what a digit brings in, {:.1} times what joining does",
        spreads.rounding.log2(),
        spreads.result.log2(),
        margin.log2(),
        margin / digit,
        margin / joined
    );
    if margin < ENOUGH * joined {
        println!("reckoned: this set has not margin enough for modulus {MODULUS}; expect drifts outside, and wrong results");
    }
    Ok(())
}

/// A line for each lookup with drift, and the largest shares. Tells whether all are inside.
fn tell(told: &[LookupDrift]) -> bool {
    for (at, one) in told.iter().enumerate() {
        let what = if at < DIGITS { "digit" } else { "joined" };
        println!(
            "lookup {at}, {what:<6}: brought in {:>10}, {:>4.1} % of its margin; result {:>10}, {:>4.1} %{}",
            one.brought,
            100.0 * one.brought_share(),
            one.drift,
            100.0 * one.drift_share(),
            if one.inside { "" } else { ", OUTSIDE" }
        );
    }
    let largest = |share: fn(&LookupDrift) -> f64| 100.0 * told.iter().map(share).fold(0.0, f64::max);
    println!(
        "margins: at most {:.1} % of the margin was brought into a lookup, a result takes at most {:.1} % of its own",
        largest(LookupDrift::brought_share),
        largest(LookupDrift::drift_share)
    );
    told.iter().all(|one| one.inside)
}

fn run(first: u8, second: u8, set: sets::Set) -> Result<bool, Box<dyn Error>> {
    if archive_version() != INTERFACE_VERSION {
        return Err(format!("the archive has version {} of the interface, and this program is written for {INTERFACE_VERSION}", archive_version()).into());
    }
    println!("set {}, prices {first} and {second}", set.name);
    forecast(set)?;
    let mut random = SystemRandom::open()?;
    eprintln!("making the keys at set {}", set.name);
    let secret = SecretKeys::draw(set.params, &mut random)?;
    let cloud = OwnedCloudKey::draw(&secret, set.noise, &mut random)?;
    let key = cloud.view();
    let mut encrypted = |price: u8| digits(price).map(|digit| secret.encrypt_message(digit, MODULUS, set.noise, &mut random)).collect::<Result<Vec<_>, _>>();
    let (a, b) = (encrypted(first)?, encrypted(second)?);
    let bits: Vec<bool> = [first, second].iter().flat_map(|price| (0..WIDTH).map(move |i| price >> i & 1 != 0)).collect();
    let ins = secret.encrypt_bits(&bits, set.noise, &mut random)?;

    // By tables, as whoever holds the cloud key alone does it.
    let mut line = progress::Line::start("rotations by tables", LOOKUPS);
    let (start, mut done) = (Instant::now(), 0);
    let by_tables = first_is_lower(key, &a, &b, |table, c| {
        line.at(done, "comparing");
        done += 1;
        key.evaluate_lookup(table, c)
    })?;
    let tables = start.elapsed().as_secs_f64();
    line.clear();

    // The same with its drifts, as whoever holds the secret keys measures it.
    let mut line = progress::Line::start("rotations with drift", LOOKUPS);
    let (mut told, mut messages) = (Vec::new(), plain_messages(first, second).into_iter());
    let measured = first_is_lower(key, &a, &b, |table, c| {
        line.at(told.len(), "measuring");
        let (out, drift) = key.evaluate_lookup_drift(table, &secret, messages.next().unwrap_or_default(), c)?;
        told.push(drift);
        Ok(out)
    })?;
    line.clear();

    let circuit = comparator()?;
    let work = circuit.work()? as usize;
    let mut line = progress::Line::start("rotations by gates", work);
    let start = Instant::now();
    let by_gates = Run::start(&circuit, key, &ins)?.finish(|p| line.at(circuit.work_to(p.done) as usize, "comparing"))?;
    let gates = start.elapsed().as_secs_f64();
    line.clear();

    let inside = tell(&told);
    println!("by tables: {done:>2} rotations, {tables:.3} s, {:.4} s a lookup", tables / done.max(1) as f64);
    println!("by gates:  {work:>2} rotations, {gates:.3} s, {:.4} s a rotation; {:.2} times as long", gates / work.max(1) as f64, gates / tables);
    let got = [secret.decrypt_bit(&by_tables)?, secret.decrypt_bit(&by_gates)?];
    let said = |lower: bool| if lower { "lower" } else { "not lower" };
    println!("the first price is {} by tables, {} by gates", said(got[0]), said(got[1]));
    let right = got == [first < second; 2] && measured == by_tables;
    if !inside {
        println!("OUTSIDE: a drift is not inside its margin, so the result by tables is not guaranteed");
    }
    if !right {
        println!("WRONG: a result differs from the plain numbers, or a lookup with drift from one without");
    }
    Ok(right && inside)
}

fn main() {
    let args: Vec<String> = std::env::args().skip(1).collect();
    let price = |at: usize, default: u8| args.get(at).map_or(Ok(default), |text| text.parse());
    let name = match args.get(2).map_or("small", String::as_str) {
        "small" => "practice",
        name => name,
    };
    let outcome = match (price(0, 137), price(1, 141), sets::by_name(name)) {
        (Ok(first), Ok(second), Some(set)) if args.len() != 1 && args.len() <= 3 => run(first, second, set),
        _ => {
            eprintln!("compare_prices [FIRST SECOND [80|110|128|uint1..uint6|small]], prices from 0 to 255");
            exit(2)
        }
    };
    match outcome {
        Ok(true) => {}
        Ok(false) => exit(1),
        Err(error) => {
            eprintln!("compare_prices: {error}");
            exit(3)
        }
    }
}
