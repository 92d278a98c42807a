//! A circuit written elsewhere, on encrypted bits: reads a text in the Bristol Fashion form, runs its circuit plain and encrypted, and prints what it should give and
//! what it gave. The status is 1 if any bit is wrong.
//!
//!     bristol [SET [FILE]]
//!
//! SET is as in the example gates; it is small by default, which is quick and gives no secrecy. FILE is a text, `-` for standard input; without it the text is a full
//! adder, two bits and a carry. A circuit of up to three inputs is run on every input, a larger one on eight that are drawn.

mod progress;

use egl::{sets, Circuit, OwnedCloudKey, Random, Run, SecretKeys, SystemRandom};
use std::error::Error;
use std::io::Read;
use std::process::exit;

/// A full adder, its wires numbered in no order.
const ADDER: &str = "6 9\n2 2 1\n1 2\n\n2 1 0 1 6 XOR\n2 1 0 1 4 AND\n2 1 2 6 3 XOR\n2 1 6 2 5 AND\n2 1 5 4 8 XOR\n1 1 3 7 EQW\n";

/// The text's bytes.
fn read(file: Option<&str>) -> std::io::Result<Vec<u8>> {
    match file {
        None => Ok(ADDER.into()),
        Some("-") => {
            let mut text = Vec::new();
            std::io::stdin().read_to_end(&mut text)?;
            Ok(text)
        }
        Some(name) => std::fs::read(name),
    }
}

/// The rows of bits to run it on.
fn rows(inputs: usize, random: &mut SystemRandom) -> std::io::Result<Vec<Vec<bool>>> {
    if inputs <= 3 {
        return Ok((0..1 << inputs).map(|row| (0..inputs).map(|i| row >> i & 1 != 0).collect()).collect());
    }
    let mut drawn = vec![0; 8 * inputs];
    random.fill(&mut drawn)?;
    Ok(drawn.chunks(inputs).map(|row| row.iter().map(|byte| byte & 1 != 0).collect()).collect())
}

fn shown(bits: &[bool]) -> String {
    bits.iter().map(|bit| if *bit { '1' } else { '0' }).collect()
}

/// Gives the number of wrong bits.
fn run(set: sets::Set, file: Option<&str>) -> Result<usize, Box<dyn Error>> {
    let circuit = Circuit::from_bristol(&read(file)?)?;
    println!("circuit: {} inputs, {} gates, {} outputs, work {}", circuit.inputs(), circuit.gates(), circuit.outputs().len(), circuit.work()?);

    let mut random = SystemRandom::open()?;
    eprintln!("making the keys at set {}", set.name);
    let secret = SecretKeys::draw(set.params, &mut random)?;
    let cloud = OwnedCloudKey::draw(&secret, set.noise, &mut random)?;
    let rows = rows(circuit.inputs(), &mut random)?;
    let work = circuit.work()? as usize;
    let mut line = progress::Line::start("rotations", rows.len() * work);
    let (mut done, mut wrong, mut all) = (0, 0, 0);
    println!("inputs: meant, got");
    for bits in rows {
        let meant = circuit.run_plain(&bits)?;
        let ins = secret.encrypt_bits(&bits, set.noise, &mut random)?;
        let out = Run::start(&circuit, cloud.view(), &ins)?.finish(|p| line.at(done + circuit.work_to(p.done) as usize, "evaluating"))?;
        let got = secret.decrypt_bits(&out)?;
        done += work;
        all += meant.len();
        wrong += meant.iter().zip(&got).filter(|(meant, got)| meant != got).count();
        line.clear();
        println!("{}: {}, {}{}", shown(&bits), shown(&meant), shown(&got), if got == meant { "" } else { " WRONG" });
    }
    println!("{wrong} of {all} bits wrong");
    Ok(wrong)
}

fn main() {
    let args: Vec<String> = std::env::args().skip(1).collect();
    let name = match args.first().map_or("small", String::as_str) {
        "small" => "practice",
        name => name,
    };
    let outcome = match sets::by_name(name) {
        Some(set) if args.len() <= 2 => run(set, args.get(1).map(String::as_str)),
        _ => {
            eprintln!("bristol [80|110|128|uint1..uint6|small [FILE|-]]");
            exit(2)
        }
    };
    match outcome {
        Ok(0) => {}
        Ok(_) => exit(1),
        Err(error) => {
            eprintln!("bristol: {error}");
            exit(3)
        }
    }
}
