//! Every gate on every input, encrypted: draws keys from the system's random source, encrypts, evaluates, decrypts and prints what each gate
//! should give and what it gave. The status is 1 if any bit is wrong.
//!
//!     gates [SET [KEYS [GATES]]]
//!
//! SET is a published set (80, 110, 128, uint1 to uint6; 128 by default) or small, which is quick and gives no secrecy. KEYS is the number of fresh
//! keys, 1 by default. GATES are names with commas between, all gates by default.

mod progress;

use egl::{sets, Gate, OwnedCloudKey, SecretKeys, SystemRandom};
use std::error::Error;
use std::process::exit;
use std::time::{Duration, Instant};

fn main() {
    let args: Vec<String> = std::env::args().skip(1).collect();
    let name = match args.first().map_or("128", String::as_str) {
        "small" => "practice",
        name => name,
    };
    let keys = args.get(1).map_or(Ok(1), |count| count.parse::<usize>());
    let gates = match args.get(2) {
        None => Some(Gate::ALL.to_vec()),
        Some(names) => names.split(',').map(|name| Gate::ALL.iter().find(|gate| gate.name() == name).copied()).collect(),
    };
    let (set, keys, gates) = match (sets::by_name(name), keys, gates) {
        (Some(set), Ok(keys), Some(gates)) if args.len() <= 3 && keys > 0 => (set, keys, gates),
        _ => {
            eprintln!("gates [80|110|128|uint1..uint6|small [KEYS [nand,mux..]]]");
            exit(2)
        }
    };
    match run(set, keys, &gates) {
        Ok(0) => {}
        Ok(_) => exit(1),
        Err(error) => {
            eprintln!("gates: {error}");
            exit(3)
        }
    }
}

/// Gives the number of wrong bits.
fn run(set: sets::Set, keys: usize, gates: &[Gate]) -> Result<usize, Box<dyn Error>> {
    let p = set.params;
    println!("set {}: n {}, N {}, bgbit {}, l {}, basebit {}, t {}", set.name, p.n, 1u32 << p.nbit, p.bgbit, p.l, p.basebit, p.t);
    let (mut wrong, mut bits) = (0, 0);
    for key in 1..=keys {
        let (bad, all) = one_key(set, key, gates)?;
        wrong += bad;
        bits += all;
    }
    println!("{wrong} of {bits} bits wrong over {keys} fresh key{}", if keys == 1 { "" } else { "s" });
    Ok(wrong)
}

/// The gates under one fresh key: the number of wrong bits and of all bits.
fn one_key(set: sets::Set, key: usize, gates: &[Gate]) -> Result<(usize, usize), Box<dyn Error>> {
    let mut random = SystemRandom::open()?;
    eprintln!("key {key}: making the keys");
    let start = Instant::now();
    let secret = SecretKeys::draw(set.params, &mut random)?;
    let cloud = OwnedCloudKey::draw(&secret, set.noise, &mut random)?;
    println!("key {key}: made in {:.1} s", start.elapsed().as_secs_f64());

    let rotations = |gate: Gate| gate.rotations() * gate.truth_table().count();
    let total = gates.iter().map(|gate| rotations(*gate)).sum();
    let mut line = progress::Line::start("rotations", total);
    let (mut done, mut wrong, mut bits, mut spent) = (0, 0, 0, Duration::ZERO);
    println!("gate        inputs a, b, c: meant, got");
    for &gate in gates {
        let mut row = format!("{gate:<10}");
        for (operands, meant) in gate.truth_table() {
            line.at(done, gate.name());
            let taken = operands.get(..gate.operands()).unwrap_or_default();
            // Each operand is encrypted afresh.
            let inputs = taken.iter().map(|bit| secret.encrypt_bit(*bit, set.noise, &mut random)).collect::<Result<Vec<_>, _>>()?;
            let lent: Vec<&[u32]> = inputs.iter().map(Vec::as_slice).collect();
            let start = Instant::now();
            let out = cloud.view().evaluate(gate, &lent)?;
            spent += start.elapsed();
            let got = secret.decrypt_bit(&out)?;
            wrong += usize::from(got != meant);
            bits += 1;
            done += gate.rotations();
            let shown: String = taken.iter().map(|bit| if *bit { '1' } else { '0' }).collect();
            row += &format!("  {shown}: {},{}{}", u8::from(meant), u8::from(got), if got == meant { "" } else { " WRONG" });
        }
        line.clear();
        println!("{row}");
    }
    if gates.contains(&Gate::Xnor) {
        println!("xnor computes xor, as in the original");
    }
    let each = spent.as_secs_f64() / total.max(1) as f64;
    println!("key {key}: {wrong} of {bits} bits wrong; a gate takes {each:.4} s (mux two of that, mux_naive three)");
    Ok((wrong, bits))
}
