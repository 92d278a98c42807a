//! The Bristol Fashion text: import and export against an independent reader, evaluator and writer. Answers and places, every byte, slices longer than the result, of
//! its length, one byte short and empty; plain runs of what was imported against the text's meaning, and of what was exported, and imported again, against the circuit's.
//! Chosen texts, those at the limits and long ones are in `bristol_limits`.

use crate::bristol::{exported, read, Text};
use crate::bristol_texts::{damage, damage_bytes, lines, middling, others, small, written, Tokens};
use crate::case::{Arg, Set};
use crate::circuits::{self, KINDS};
use crate::compare::Tally;
use crate::ffi::bristol::*;
use crate::ffi::circuit::egl_circuit_run_plain;
use crate::source::Source;
use super::bristol_limits;

/// From this length on a text's import is made once, and its time told.
const LONG: usize = 200_000;

/// A refusal as an answer; a place beyond 32 bits is told as the largest.
fn refusal(number: u64, place: usize) -> u64 {
    number | (place as u64).min(u32::MAX as u64) << 32
}

/// The start of a text, to be told of.
fn shown(bytes: &[u8]) -> String {
    format!("{:?} ({} bytes)", String::from_utf8_lossy(&bytes[..bytes.len().min(150)]), bytes.len())
}

/// The lengths of the slices that a call is lent to write to: for a result of so many bytes two that are too short and two that are not, through the bridge one of each, and
/// one that is not too short for a long text; for a refusal any length.
fn lengths(source: &mut Source, lent: usize, result: Option<usize>) -> Vec<usize> {
    let Some(result) = result else { return vec![source.of(&[0, 1, 13, 40, 600])] };
    let (short, enough) = ([result - 1, 0], [result, result + 1 + source.below(70) as usize]);
    if lent >= LONG {
        return vec![source.of(&enough)];
    }
    if cfg!(bridge) {
        return vec![source.of(&short), source.of(&enough)];
    }
    [short, enough].concat()
}

/// Calls a function that answers with a length, once for each length of the slice that it is to write to. Gives the bytes that it wrote, and the seconds of the last call.
fn converted(tally: &mut Tally, source: &mut Source, call: fn(&mut [Arg]) -> u64, lent: &[u8], want: &Result<Vec<u8>, u64>) -> (Option<Vec<u8>>, f64) {
    let (mut given, mut seconds) = (None, 0.0);
    for length in lengths(source, lent.len(), want.as_ref().ok().map(Vec::len)) {
        let before: Vec<u8> = (0..length).map(|_| source.next() as u8).collect();
        let mut args = [Arg::Bytes(lent.to_vec()), Arg::Bytes(before.clone())];
        let start = std::time::Instant::now();
        let answer = call(&mut args);
        seconds = start.elapsed().as_secs_f64();
        let (wanted, after) = match want {
            Ok(result) if result.len() <= length => ((result.len() as u64) << 32, [result, &before[result.len()..]].concat()),
            Ok(_) => (2, before),
            Err(refused) => (*refused, before),
        };
        tally.refused(wanted as u32);
        tally.same(answer == wanted, || format!("{}, {length} bytes to be written: {answer:#x}, wanted {wanted:#x}", shown(lent)));
        let differs = args[1].b().iter().zip(&after).position(|(got, want)| got != want);
        tally.same(differs.is_none(), || format!("{}, {length} bytes to be written: byte {} differs", shown(lent), differs.unwrap_or(0)));
        if answer as u32 == 0 {
            given = args[1].b().get(..(answer >> 32) as usize).map(<[u8]>::to_vec);
        }
    }
    (given, seconds)
}

/// The outputs' bits of a circuit by the library's plain run; none where it refuses.
fn plain(circuit: &[u8], inputs: &[u8], outputs: usize) -> Option<Vec<u8>> {
    let mut args = [Arg::Bytes(circuit.to_vec()), Arg::Bytes(inputs.to_vec()), Arg::Bytes(vec![2; outputs])];
    (egl_circuit_run_plain(&mut args) == 0).then(|| args[2].b().to_vec())
}

fn bits(source: &mut Source, count: usize) -> Vec<u8> {
    (0..count).map(|_| source.below(2) as u8).collect()
}

/// What an import has to give: the circuit, or the answer that refuses.
fn imported(form: &Result<Text, usize>) -> Result<Vec<u8>, u64> {
    match form {
        Err(place) => Err(refusal(11, *place)),
        Ok(Text { beyond: Some(place), .. }) => Err(refusal(12, *place)),
        Ok(text) => Ok(text.circuit()),
    }
}

/// One text: its import, and plain runs of the circuit against the text's meaning. Gives the circuit.
pub fn import(tally: &mut Tally, source: &mut Source, text: &[u8]) -> Option<Vec<u8>> {
    let form = read(text);
    let want = imported(&form);
    tally.remark(if want.is_ok() { "a text to be taken" } else { "a text to be refused" });
    let (circuit, seconds) = converted(tally, source, egl_bristol_import, text, &want);
    let form = form.ok()?;
    if text.len() >= LONG {
        let told = if want.is_ok() { "taken" } else { "refused with 12" };
        let way = if cfg!(bridge) { ", sent to the emulator and run by it" } else { "" };
        tally.notes.push(format!("{} gates, {} wires, {} bytes: {told} in {:.1} ms{way}", form.gates.len(), form.wires, text.len(), 1e3 * seconds));
    }
    let (Ok(_), Some(circuit)) = (want, circuit) else { return None };
    for _ in 0..2 {
        let inputs = bits(source, form.inputs as usize);
        let meant = form.meaning(&inputs.iter().map(|bit| *bit == 1).collect::<Vec<_>>());
        let got = plain(&circuit, &inputs, form.outputs as usize);
        tally.same(got.as_ref() == Some(&meant), || format!("{}: on {inputs:?} {got:?}, meant {meant:?}", shown(text)));
    }
    Some(circuit)
}

/// One circuit: its export, what the text means against the circuit's plain run, and the same of what is imported again.
pub fn export(tally: &mut Tally, source: &mut Source, bytes: &[u8]) {
    let circuit = circuits::read(bytes);
    let want = circuit.as_ref().map(exported).map_err(|(number, place)| refusal(*number, *place));
    tally.remark(if want.is_ok() { "a circuit to be written" } else { "a circuit to be refused" });
    let text = converted(tally, source, egl_bristol_export, bytes, &want).0;
    let (Some(text), Ok(circuit)) = (text, circuit) else { return };
    let again = import(tally, source, &text);
    let Ok(form) = read(&text) else { return tally.differ(format!("{}: exported, and not in the form", shown(&text))) };
    for _ in 0..2 {
        let inputs = bits(source, circuit.inputs);
        let own = plain(bytes, &inputs, circuit.outputs.len());
        let meant = form.meaning(&inputs.iter().map(|bit| *bit == 1).collect::<Vec<_>>());
        tally.same(own.as_ref() == Some(&meant), || format!("{}: on {inputs:?} the circuit gives {own:?}, its text means {meant:?}", shown(&text)));
        if let Some(again) = &again {
            let got = plain(again, &inputs, circuit.outputs.len());
            tally.same(got == own, || format!("{}: on {inputs:?} {got:?} after its import, {own:?} before its export", shown(&text)));
        }
    }
}

/// Every byte of a text set to every value, and a byte of every kind put in at every place; the text cut at every place.
pub fn each_byte(tally: &mut Tally, source: &mut Source, text: &[u8]) {
    for at in 0..text.len() {
        for value in 0..=255 {
            let mut other = text.to_vec();
            other[at] = value;
            import(tally, source, &other);
        }
        import(tally, source, &text[..at]);
        for byte in *b"0 \n1X" {
            let mut other = text.to_vec();
            other.insert(at, byte);
            import(tally, source, &other);
        }
        let mut other = text.to_vec();
        other.remove(at);
        import(tally, source, &other);
    }
    for end in ["", " ", "\n", "\r\n\t ", "0", " 0", "\nx", "\n2 1 0 1 2 XOR\n", "\0", "\n\0"] {
        import(tally, source, &[text, end.as_bytes()].concat());
    }
}

/// Every token in turn replaced by each of many others, left out, doubled, and exchanged with the one behind it.
pub fn each_token(tally: &mut Tally, source: &mut Source, tokens: &Tokens) {
    for at in 0..tokens.len() {
        for other in others(&tokens[at]) {
            let mut changed = tokens.clone();
            changed[at] = other;
            import(tally, source, &lines(&changed, "\n"));
        }
        let (mut less, mut more, mut turned) = (tokens.clone(), tokens.clone(), tokens.clone());
        less.remove(at);
        more.insert(at, tokens[at].clone());
        turned.swap(at, (at + 1).min(tokens.len() - 1));
        for changed in [less, more, turned] {
            import(tally, source, &lines(&changed, "\n"));
        }
    }
}

/// Random texts, mostly small, and what becomes of them when tokens or bytes are damaged.
fn random(tally: &mut Tally, source: &mut Source, count: usize) {
    for i in 0..count {
        let tokens = if i % 200 == 0 { middling(source) } else { small(source) };
        let text = written(source, &tokens);
        import(tally, source, &text);
        let mut damaged = tokens.clone();
        damage(source, &mut damaged);
        let text = written(source, &damaged);
        import(tally, source, &text);
        if source.below(2) == 0 {
            let mut text = written(source, &tokens);
            damage_bytes(source, &mut text);
            import(tally, source, &text);
        }
    }
}

/// Circuits of all kinds, valid and damaged; small ones with every byte set to every value; the largest.
fn circuits_out(tally: &mut Tally, source: &mut Source) {
    for (i, g, o) in [(2, 1, 1), (0, 2, 1), (3, 2, 2), (1, 0, 1)] {
        let bytes = circuits::valid(source, KINDS, i, g, o);
        for at in 0..bytes.len() {
            for value in 0..=255 {
                let mut other = bytes.clone();
                other[at] = value;
                export(tally, source, &other);
            }
            export(tally, source, &bytes[..at]);
        }
    }
    for _ in 0..6_000 {
        let (i, g, o) = (source.below(7) as usize, source.below(14) as usize, 1 + source.below(4) as usize);
        let mut bytes = circuits::valid(source, KINDS, i, g, o);
        export(tally, source, &bytes);
        circuits::damage(source, &mut bytes);
        export(tally, source, &bytes);
    }
    // wires of one to four digits; texts below the limit of 1,024 gates and above it
    for (i, g, o) in [(9, 91, 3), (99, 320, 5), (256, 340, 64), (100, 900, 64), (256, 1024, 64), (0, 1024, 1), (256, 0, 64), (255, 1023, 63)] {
        let bytes = circuits::valid(source, KINDS, i, g, o);
        export(tally, source, &bytes);
        export(tally, source, &[bytes.as_slice(), &[0]].concat());
    }
    for kind in 0..KINDS as usize {
        // every kind on its own, with all operands different and with all alike
        for operands in [[0, 1, 2], [2, 1, 0], [1, 1, 1]] {
            let fields = [1, 3, 1, 2].into_iter().chain([kind]).chain((0..3).map(|i| if i < circuits::NEEDS[kind] { operands[i] } else { 0 })).chain([3, 0]);
            let bytes: Vec<u8> = b"EGL".iter().copied().chain(fields.flat_map(|field| (field as u16).to_le_bytes())).collect();
            (0..8).for_each(|_| export(tally, source, &bytes));
        }
    }
}

pub fn run(_sets: &[Set], tally: &mut Tally) {
    let mut source = Source::new(crate::SEED, "bristol");
    let source = &mut source;
    bristol_limits::chosen(tally, source);
    random(tally, source, 80_000);
    circuits_out(tally, source);
    bristol_limits::limits(tally, source);
    bristol_limits::long(tally, source);
}
