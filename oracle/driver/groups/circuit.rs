//! Circuits against an independent reader and evaluator: answer and place, counts, work (the rotations of a run, counted by running), plain run;
//! valid ones, damaged ones, every byte of small ones set to every value, muxes alone.

use crate::case::{Arg, Set};
use crate::circuits::{damage, read, run_plain, valid, KINDS};
use crate::compare::Tally;
use crate::exact_run;
use crate::ffi::circuit::*;
use crate::source::Source;

/// One circuit: check, counts, work, plain run with lengths that fit and with some that do not.
fn compare(tally: &mut Tally, source: &mut Source, bytes: &[u8]) {
    let circuit = read(bytes);
    let want = circuit.as_ref().err().map_or(0, |(number, place)| number | (*place as u64) << 32);
    let lent = Arg::Bytes(bytes.to_vec());
    tally.refused(want as u32);
    let shown = || bytes.iter().take(60).map(|b| format!("{b:02x}")).collect::<String>();

    let got = egl_circuit_check(&mut [lent.clone()]);
    tally.same(got == want, || format!("check {}: {got:#x}, wanted {want:#x}", shown()));

    let work = circuit.as_ref().map_or(0, exact_run::work);
    let length = if source.below(4) == 0 { source.of(&[0, 4, 6, 10]) } else { 5 };
    let before: Vec<u32> = (0..length).map(|_| source.next() as u32).collect();
    let mut args = [lent.clone(), Arg::Words(before.clone())];
    let got = egl_circuit_counts(&mut args);
    let number = if want == 0 && length != 5 { 2 } else { want };
    let told = match &circuit {
        Ok(c) if number == 0 => [1, c.inputs, c.gates.len(), c.outputs.len(), work].map(|x| x as u32).to_vec(),
        _ => before,
    };
    tally.same(got == number && args[1].w() == told, || format!("counts {}: {got:#x}, wanted {number:#x}", shown()));

    // the work stands where a refusal has its place
    let got = egl_circuit_work(&mut [lent.clone()]);
    let work = if want == 0 { (work as u64) << 32 } else { want };
    tally.same(got == work, || format!("work {}: {got:#x}, wanted {work:#x}", shown()));

    let (mut ins, mut outs) = circuit.as_ref().map_or((2, 1), |c| (c.inputs, c.outputs.len()));
    let wrong = source.below(6);
    ins = if wrong == 0 { ins + 1 } else { ins };
    outs = if wrong == 1 { outs - 1 } else { outs };
    let inputs: Vec<u8> = (0..ins).map(|_| source.of(&[0, 1, 2, 255, 0])).collect();
    let blank: Vec<u8> = (0..outs).map(|_| source.next() as u8).collect();
    let mut args = [lent, Arg::Bytes(inputs.clone()), Arg::Bytes(blank.clone())];
    let got = egl_circuit_run_plain(&mut args);
    let number = if want == 0 && wrong < 2 { 2 } else { want };
    let expected = match &circuit {
        Ok(c) if number == 0 => run_plain(c, &inputs),
        _ => blank,
    };
    let same = got == number && args[2].differs(&Arg::Bytes(expected)).is_none();
    tally.same(same, || format!("plain run {}: {got:#x}, wanted {number:#x}", shown()));
}

/// Muxes alone, each of the wires before it: nothing else has as much work, two a gate.
fn muxes(inputs: usize, gates: usize) -> Vec<u8> {
    let mut bytes = b"EGL".to_vec();
    let mut put = |x: usize| bytes.extend((x as u16).to_le_bytes());
    [1, inputs, gates, 1].into_iter().for_each(&mut put);
    for own in inputs..inputs + gates {
        [13, own - 1, own / 2, own / 3].into_iter().for_each(&mut put);
    }
    put(inputs + gates - 1);
    bytes
}

/// Document 01's circuit.
const NAND: [u8; 21] = [0x45, 0x47, 0x4C, 1, 0, 2, 0, 1, 0, 1, 0, 5, 0, 0, 0, 1, 0, 0, 0, 2, 0];

pub fn run(_sets: &[Set], tally: &mut Tally) {
    let mut source = Source::new(crate::SEED, "circuit");
    let mut small = vec![NAND.to_vec()];
    small.extend([(0, 2, 1), (3, 2, 2), (1, 0, 1), (0, 0, 1), (2, 3, 1)].map(|(i, g, o)| valid(&mut source, KINDS, i, g, o)));
    for bytes in &small {
        for at in 0..bytes.len() {
            for v in 0..=255 {
                let mut other = bytes.clone();
                other[at] = v;
                compare(tally, &mut source, &other);
            }
            compare(tally, &mut source, &bytes[..at]);
        }
    }
    for (i, g, o) in [(256, 1024, 64), (0, 1024, 64), (256, 0, 64), (256, 1024, 1), (255, 1023, 63)] {
        let bytes = valid(&mut source, KINDS, i, g, o);
        compare(tally, &mut source, &bytes);
        compare(tally, &mut source, &[bytes.as_slice(), &[0]].concat());
    }
    for (inputs, gates) in [(1, 1), (3, 1), (2, 7), (256, 1024)] {
        compare(tally, &mut source, &muxes(inputs, gates));
    }
    // work from some hundreds up to the most
    for _ in 0..300 {
        let gates = 100 + source.below(925) as usize;
        let bytes = match source.below(2) {
            0 => muxes(1 + source.below(256) as usize, gates),
            _ => valid(&mut source, KINDS, 3, gates, 1),
        };
        compare(tally, &mut source, &bytes);
    }
    for (at, most) in [(5, 256), (7, 1024), (9, 64)] {
        for count in [0, 1, most - 1, most, most + 1, 65535usize] {
            let mut bytes = NAND.to_vec();
            bytes[at..at + 2].copy_from_slice(&(count as u16).to_le_bytes());
            compare(tally, &mut source, &bytes);
        }
    }
    for _ in 0..85_000 {
        let (i, g, o) = (source.below(7) as usize, source.below(12) as usize, 1 + source.below(4) as usize);
        let mut bytes = valid(&mut source, KINDS, i, g, o);
        compare(tally, &mut source, &bytes);
        damage(&mut source, &mut bytes);
        compare(tally, &mut source, &bytes);
    }
}
