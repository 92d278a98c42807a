//! Runs the program `egl` and holds what it prints against a text made here, by the harness's own reader and evaluator of circuits.
//!   program RUNS COMMAND.. [@]   RUNS random circuits beside the chosen ones; the command runs the program, which is lent the bytes on standard input, in
//!                                one piece and in parts, or in a file whose name stands in the place of @
//! The chosen ones are where its buffers end: the longest circuit, bytes behind it, no byte at all, the longest text.
//!   program cases                prints the texts of the circuits that the program egl_cases makes

#[allow(dead_code)]
#[path = "../driver/circuits.rs"]
mod circuits;
#[allow(dead_code)]
#[path = "../driver/exact.rs"]
mod exact;
#[allow(dead_code)]
#[path = "../driver/exact_run.rs"]
mod exact_run;
#[allow(dead_code)]
#[path = "../driver/sizes.rs"]
mod sizes;
#[allow(dead_code)]
#[path = "../driver/source.rs"]
mod source;

mod cases;

use circuits::{damage, read, run_plain, valid, Circuit, KINDS};
use source::Source;
use std::io::Write;
use std::process::{exit, Command, Stdio};

/// Bits as characters.
fn shown(bits: &[u8]) -> String {
    bits.iter().map(|b| if *b == 0 { '0' } else { '1' }).collect()
}

/// A line for each row of inputs, wire 0 leftmost and fastest; none above 4 inputs.
fn table(c: &Circuit) -> String {
    let rows = if c.inputs > 4 { 0 } else { 1u8 << c.inputs };
    let inputs = |row: u8| -> Vec<u8> { (0..c.inputs).map(|i| row >> i & 1).collect() };
    (0..rows).map(|row| format!("{} {}\n", shown(&inputs(row)), shown(&run_plain(c, &inputs(row))))).collect()
}

/// What document 01 has the program print of these bytes.
fn text(bytes: &[u8]) -> String {
    match read(bytes) {
        Err((number, place)) => format!("refused {number} at {place}\n"),
        Ok(c) => {
            let work = exact_run::work(&c);
            format!("EGL 1 inputs {} gates {} outputs {} work {work}\n{}", c.inputs, c.gates.len(), c.outputs.len(), table(&c))
        }
    }
}

/// What the program prints when the bytes are a file's; nothing where it fails.
fn printed_of_file(command: &[String], bytes: &[u8]) -> Option<String> {
    let file = std::env::current_exe().ok()?.with_extension("bytes");
    std::fs::write(&file, bytes).ok()?;
    let out = Command::new(command.first()?).args(&command[1..]).arg(file).stdin(Stdio::null()).output().ok()?;
    out.status.success().then(|| String::from_utf8_lossy(&out.stdout).into_owned())
}

/// The same when they come on standard input, in parts of so many.
fn printed(command: &[String], bytes: &[u8], part: usize) -> Option<String> {
    let mut child = Command::new(&command[0]).args(&command[1..]).stdin(Stdio::piped()).stdout(Stdio::piped()).spawn().ok()?;
    let mut to = child.stdin.take()?;
    // the program stops reading where no circuit can be longer, so what is left may find nobody
    for bytes in bytes.chunks(part) {
        let _ = to.write_all(bytes).and_then(|_| to.flush());
    }
    drop(to);
    let out = child.wait_with_output().ok()?;
    out.status.success().then(|| String::from_utf8_lossy(&out.stdout).into_owned())
}

/// A circuit whose text is as long as any: 4 inputs, so 16 lines of 64 outputs, and 1,024 gates that all count.
fn longest_text() -> Vec<u8> {
    let mut bytes = b"EGL".to_vec();
    [1u16, 4, 1024, 64].iter().for_each(|x| bytes.extend(x.to_le_bytes()));
    for g in 0..1024u16 {
        [5, g + 3, g % 5, 0].iter().for_each(|x| bytes.extend(x.to_le_bytes()));
    }
    (0..64u16).for_each(|o| bytes.extend((1027 - o).to_le_bytes()));
    bytes
}

/// The chosen circuits, by what they are.
fn chosen(source: &mut Source) -> Vec<(&'static str, Vec<u8>)> {
    let longest = valid(source, KINDS, 256, 1024, 64);
    let with = |more: usize| [longest.as_slice(), &vec![0; more]].concat();
    let example = [0x45, 0x47, 0x4C, 1, 0, 2, 0, 1, 0, 1, 0, 5, 0, 0, 0, 1, 0, 0, 0, 2, 0];
    let changed = |at: usize, byte: u8| {
        let mut bytes = example.to_vec();
        bytes[at] = byte;
        bytes
    };
    vec![
        ("document 01's example", example.to_vec()),
        ("no byte", Vec::new()),
        ("10 bytes", example[..10].to_vec()),
        ("a byte less", example[..20].to_vec()),
        ("the longest circuit", longest.clone()),
        ("the longest and a byte", with(1)),
        ("the longest and two bytes", with(2)),
        ("the longest and 100,000 bytes", with(100_000)),
        ("the longest but a byte", longest[..8330].to_vec()),
        ("the longest text", longest_text()),
        ("the longest text and a byte", [longest_text(), vec![0]].concat()),
        ("the longest text, its last output at fault", [&longest_text()[..8329], &[4, 4]].concat()),
        ("no inputs", valid(source, KINDS, 0, 9, 3)),
        ("no inputs, many outputs", valid(source, KINDS, 0, 1024, 64)),
        ("no wire", valid(source, KINDS, 0, 0, 1)),
        ("4 inputs, no gates", valid(source, KINDS, 4, 0, 64)),
        ("4 inputs", valid(source, KINDS, 4, 40, 5)),
        ("muxes alone, the most work", cases::circuit(Some(13), 4, 1024, 64)),
        ("5 inputs", valid(source, KINDS, 5, 40, 5)),
        ("256 inputs, no gates", valid(source, KINDS, 256, 0, 1)),
        ("refusal 6", changed(0, 0)),
        ("refusal 7", changed(3, 2)),
        ("refusal 8", changed(9, 0)),
        ("refusal 9", changed(13, 2)),
        ("refusal 10", changed(19, 3)),
    ]
}

fn main() {
    let args: Vec<String> = std::env::args().skip(1).collect();
    if args == ["cases"] {
        cases::all().iter().for_each(|bytes| print!("{}", text(bytes)));
        return;
    }
    let (Some(runs), Some(command)) = (args.first().and_then(|n| n.parse::<usize>().ok()), args.get(1..).filter(|c| !c.is_empty())) else {
        eprintln!("program RUNS COMMAND..");
        exit(2)
    };
    let mut source = Source::new(0x5EED_2026, "program");
    let mut cases = chosen(&mut source);
    assert_eq!((cases[4].1.len(), text(&longest_text()).len()), (8331, 1167), "the longest circuit and the longest text");
    for i in 0..runs {
        let (inputs, gates, outputs) = (source.below(6) as usize, source.below(30) as usize, 1 + source.below(64) as usize);
        let mut bytes = valid(&mut source, KINDS, inputs, gates, outputs);
        if i % 3 == 0 {
            damage(&mut source, &mut bytes);
        }
        cases.push(("a random circuit", bytes));
    }
    let mut differences = 0;
    for (what, bytes) in &cases {
        let ways = match command.split_last() {
            Some((at, command)) if at == "@" => vec![printed_of_file(command, bytes)],
            _ => [bytes.len().max(1), 4096 - 1].map(|part| printed(command, bytes, part)).into(),
        };
        let want = text(bytes);
        for got in ways {
            if got.as_ref() == Some(&want) {
                continue;
            }
            differences += 1;
            if differences <= 5 {
                println!("program: {what} ({} bytes): {got:?}, wanted {want:?}", bytes.len());
            }
        }
    }
    println!("program: {} circuits, {differences} differences", cases.len());
    exit((differences != 0) as i32)
}
