//! Drift runs: drifts that can be known (lent noise, phases worked out here), the one call and the run gate by gate, refusals, a key with too much noise.

use crate::seeded::{circuit, keys, keys_at, little, Listed, Seeded, CIPHERTEXT, MASKS, OUTSIDE, TINY};
use egl::sets::PRACTICE;
use egl::{inside, lent, margin, Builder, Circuit, DriftRun, Kind, Noise, OwnedCloudKey, Progress, Refusal, SecretKeys, Secrets};

/// The phase of a ciphertext, worked out here.
fn phase(secret: &SecretKeys, ciphertext: &[u32]) -> u32 {
    let (body, masks) = ciphertext.split_last().unwrap();
    masks.iter().zip(secret.level0()).fold(*body, |phase, (mask, bit)| phase.wrapping_sub(mask.wrapping_mul(*bit)))
}

/// What the phase leaves when the bit's eighth of a turn is taken from it.
fn left(secret: &SecretKeys, ciphertext: &[u32], bit: bool) -> i32 {
    phase(secret, ciphertext).wrapping_sub(if bit { 1 << 29 } else { 7 << 29 }) as i32
}

#[test]
fn margins_count_bits_below_an_eighth() {
    for (drift, bits) in [(0, 29), (1, 28), (-1, 28), (2, 27), (3, 27), (-4, 26), ((1 << 29) - 1, 0), (1 << 29, -1), (i32::MAX, -2), (i32::MIN, -3)] {
        assert_eq!((margin(drift), inside(drift)), (bits, bits >= 0), "{drift}");
    }
    for (drift, told) in [(1 - (1 << 29), true), (-(1 << 29), false), (1 << 30, false)] {
        assert_eq!((inside(drift), margin(drift) >= 0), (told, told), "{drift}");
    }
}

#[test]
fn fresh_drift_is_the_lent_noise() {
    let (secret, _) = keys(80);
    let mut seeded = Seeded(81);
    for noise in [0, 1, u32::MAX, 12_345, (1 << 29) - 1, 1 << 31] {
        for bit in [false, true] {
            let masks: Vec<u32> = (0..MASKS).map(|_| seeded.next() as u32).collect();
            let mut out = vec![0; CIPHERTEXT];
            lent::encrypt_bit(TINY, bit, &masks, noise, secret.level0(), &mut out).unwrap();
            assert_eq!(secret.fresh_drift(&out, bit), Ok(noise as i32));
            // The other bit is a quarter of a turn away.
            let quarter = if bit { 1 << 30 } else { 3 << 30 };
            assert_eq!(secret.fresh_drift(&out, !bit), Ok(noise.wrapping_add(quarter) as i32));
        }
    }
}

/// One input and the gates that rotate nothing: every drift is known.
#[test]
fn drifts_without_a_rotation_are_known() {
    let (secret, cloud) = keys(82);
    let mut builder = Builder::new(1);
    let a = builder.input(0);
    let outs = [builder.gate(Kind::False, &[]), builder.gate(Kind::True, &[]), builder.gate(Kind::Not, &[a])];
    outs.iter().chain([&a]).for_each(|wire| builder.output(*wire));
    let circuit = builder.build().unwrap();
    for (noise, all) in [(5, true), ((1 << 29) - 1, true), (1 << 29, false), (7 << 29, false)] {
        let mut ins = vec![0; CIPHERTEXT];
        lent::encrypt_bit(TINY, true, &[3; MASKS], noise, secret.level0(), &mut ins).unwrap();
        let run = circuit.evaluate_drift(cloud.view(), &secret, &ins, &[true]).unwrap();
        assert_eq!((run.drifts, run.inside), (vec![noise as i32, 1, 0, noise.wrapping_neg() as i32], all), "{noise}");
        let mut run = DriftRun::start(&circuit, cloud.view(), &secret, &ins, &[true]).unwrap();
        assert_eq!((run.drift(0), run.drift(1), run.inside()), (Some(noise as i32), None, if all { None } else { Some(false) }));
        assert!(run.by_ref().all(|gate| gate.unwrap().worst.is_none()));
        assert_eq!((run.margin(), run.inside()), (None, Some(all)));
    }
}

/// Both forms of a run, held to each other and, where it is inside, to the bits: each wire's phase is ±2^29 by its plain bit plus its drift.
fn both_ways(secret: &SecretKeys, cloud: &OwnedCloudKey, noise: Noise, seeded: &mut Seeded, round: usize) -> bool {
    let (inputs, gates, outputs) = (seeded.below(6), 1 + seeded.below(12), 1 + seeded.below(4));
    let (circuit, listed, _) = circuit(seeded, inputs, gates, outputs);
    let bits = seeded.bits(inputs);
    let ins = secret.encrypt_bits(&bits, noise, &mut seeded.source()).unwrap();
    let whole = circuit.evaluate_drift(cloud.view(), secret, &ins, &bits).unwrap();
    assert_eq!(whole.outputs, circuit.evaluate(cloud.view(), &ins).unwrap(), "round {round}");

    let mut told = Vec::new();
    let run = DriftRun::start(&circuit, cloud.view(), secret, &ins, &bits).unwrap().finish(|gate| told.push(gate)).unwrap();
    assert_eq!((run.outputs().unwrap(), run.inside()), (whole.outputs.clone(), Some(whole.inside)), "round {round}");
    let drifts: Vec<i32> = (0..circuit.wires()).map(|wire| run.drift(wire).unwrap()).collect();
    assert_eq!((&drifts, run.drift(circuit.wires())), (&whole.drifts, None));
    for (g, gate) in told.iter().enumerate() {
        assert_eq!((gate.progress, gate.gate), (Progress { done: g + 1, total: gates }, g));
        assert_eq!((gate.drift, gate.worst), (drifts[inputs + g], run.worst(g)));
        assert_eq!(gate.worst.is_some(), listed[g].0.number() >= 3);
    }
    assert_eq!(run.margin(), told.iter().filter_map(|gate| gate.worst).map(margin).min());
    let outside = told.iter().any(|gate| gate.worst.map_or(false, |worst| !inside(worst))) || circuit.outputs().iter().any(|wire| !inside(drifts[*wire]));
    assert_eq!(whole.inside, !outside, "round {round}");
    if whole.inside {
        assert_eq!(secret.decrypt_bits(&whole.outputs).unwrap(), circuit.run_plain(&bits).unwrap(), "round {round}");
        for (wire, bit) in plain_wires(&listed, &bits).into_iter().enumerate() {
            assert_eq!(left(secret, run.wire(wire).unwrap(), bit), drifts[wire], "round {round}, wire {wire}");
        }
    }
    whole.inside
}

/// The bit of every wire by the kinds' meanings.
fn plain_wires(listed: &[Listed], ins: &[bool]) -> Vec<bool> {
    let mut wires = ins.to_vec();
    for (kind, [a, b, c]) in listed {
        let bit = |wire: &usize| wires.get(*wire).copied().unwrap_or(false);
        let value = kind.meaning(bit(a), bit(b), bit(c));
        wires.push(value);
    }
    wires
}

#[test]
fn random_circuits_are_inside_with_little_noise() {
    let (secret, cloud) = keys(83);
    let mut seeded = Seeded(84);
    for round in 0..12 {
        assert!(both_ways(&secret, &cloud, little(), &mut seeded, round), "round {round}");
    }
    let (secret, cloud) = keys_at(PRACTICE.params, 85);
    assert!(both_ways(&secret, &cloud, PRACTICE.noise, &mut seeded, 12));
}

/// Keys whose noise is a tenth of a turn: the run is told outside, and both forms agree all the same.
#[test]
fn too_much_noise_is_told() {
    let mut seeded = Seeded(86);
    let much = Noise::new(0.1, 0.1).unwrap();
    let secret = SecretKeys::draw(TINY, &mut seeded.source()).unwrap();
    let cloud = OwnedCloudKey::draw(&secret, much, &mut seeded.source()).unwrap();
    (0..12).for_each(|round| {
        both_ways(&secret, &cloud, much, &mut seeded, round);
    });
    // A chain of twelve gates: not every one of them is inside by chance.
    let mut builder = Builder::new(2);
    let mut last = builder.input(0);
    for _ in 0..12 {
        last = builder.gate(Kind::Xor, &[last, builder.input(1)]);
    }
    builder.output(last);
    let circuit = builder.build().unwrap();
    let ins = secret.encrypt_bits(&[true, false], little(), &mut seeded.source()).unwrap();
    let run = DriftRun::start(&circuit, cloud.view(), &secret, &ins, &[true, false]).unwrap().finish(|_| ()).unwrap();
    assert_eq!(run.inside(), Some(false));
    assert!(run.margin() < Some(0), "{run:?}");
    assert!(!circuit.evaluate_drift(cloud.view(), &secret, &ins, &[true, false]).unwrap().inside);
}

/// Two inputs, a nand and a mux: the circuit of the refusals below.
fn small() -> Circuit {
    let mut builder = Builder::new(2);
    let (a, b) = (builder.input(0), builder.input(1));
    let first = builder.gate(Kind::Nand, &[a, b]);
    let second = builder.gate(Kind::Mux, &[first, a, b]);
    builder.output(second);
    builder.build().unwrap()
}

/// Secret keys with a word that is no bit.
fn wrong(secret: &SecretKeys) -> (Vec<u32>, Vec<u32>) {
    let (mut level0, mut level1) = (secret.level0().to_vec(), secret.level1().to_vec());
    level0[MASKS - 1] = 2;
    level1[0] = u32::MAX;
    (level0, level1)
}

#[test]
fn refusals_come_in_order_and_write_nothing() {
    let (secret, cloud) = keys(87);
    let circuit = small();
    let ins = secret.encrypt_bits(&[true, false], little(), &mut Seeded(88).source()).unwrap();
    let (level0, level1) = (secret.level0(), secret.level1());
    let (wrong0, wrong1) = wrong(&secret);
    let call = |level0: &[u32], level1: &[u32], cut: [usize; 5]| {
        let (mut wires, mut out, mut drifts) = (vec![7; 4 * CIPHERTEXT - cut[2]], vec![7; CIPHERTEXT - cut[3]], vec![7; 4 - cut[4]]);
        let (ins, plain) = (&ins[cut[0]..], &[1, 0][cut[1]..]);
        let told = circuit.run_drift(cloud.view(), Secrets::new(level0, level1), ins, plain, &mut wires, &mut out, &mut drifts);
        let untouched = wires.iter().chain(&out).chain(&drifts).all(|word| *word == 7);
        assert_eq!(told.is_err(), untouched);
        told.err()
    };
    assert_eq!(call(level0, level1, [0; 5]), None);
    // A secret key of another length comes before a word that is no bit, and that before the lengths that the circuit tells.
    assert_eq!(call(&level0[1..], &wrong1, [0; 5]), Some(Refusal::Length));
    assert_eq!(call(&wrong0, &level1[1..], [1; 5]), Some(Refusal::Length));
    assert_eq!(call(&wrong0, level1, [1; 5]), Some(Refusal::SecretKeyWord));
    assert_eq!(call(level0, &wrong1, [1; 5]), Some(Refusal::SecretKeyWord));
    for cut in 0..5 {
        let mut cuts = [0; 5];
        cuts[cut] = 1;
        assert_eq!(call(level0, level1, cuts), Some(Refusal::Length), "{cut}");
    }
}

#[test]
fn a_run_is_refused_at_its_start() {
    let (secret, cloud) = keys(91);
    let circuit = small();
    let ins = secret.encrypt_bits(&[true, false], little(), &mut Seeded(92).source()).unwrap();
    let (level0, level1) = (secret.level0(), secret.level1());
    let (wrong0, wrong1) = wrong(&secret);
    let start = |secrets, ins: &[u32], bits: &[bool]| DriftRun::start(&circuit, cloud.view(), secrets, ins, bits).err();
    assert_eq!(start(Secrets::from(&secret), &ins, &[true, false]), None);
    assert_eq!(start(Secrets::new(level0, &[]), &ins, &[true, false]), Some(Refusal::Length));
    assert_eq!(start(Secrets::new(level0, &wrong1), &[], &[]), Some(Refusal::SecretKeyWord));
    assert_eq!(start(Secrets::new(&wrong0, level1), &[], &[]), Some(Refusal::SecretKeyWord));
    assert_eq!(start(Secrets::new(level0, level1), &ins[1..], &[true, false]), Some(Refusal::Length));
    assert_eq!(start(Secrets::new(level0, level1), &ins, &[true]), Some(Refusal::Length));
    assert_eq!(secret.fresh_drift(&ins, true), Err(Refusal::Length));
    assert_eq!(lent::fresh_drift(TINY, &ins[..CIPHERTEXT], true, &wrong0), Err(Refusal::SecretKeyWord));
    assert_eq!(lent::fresh_drift(OUTSIDE, &[], true, &[2]), Err(Refusal::Parameter));
    // Outputs of gates that are not done are not handed out.
    let mut run = DriftRun::start(&circuit, cloud.view(), &secret, &ins, &[true, false]).unwrap();
    assert_eq!((run.outputs(), run.wire(2), run.drift(2), run.worst(0), run.inside()), (Err(Refusal::Length), None, None, None, None));
    let first = run.step().unwrap().unwrap();
    assert_eq!((run.drift(2), run.worst(0), run.drift(3)), (Some(first.drift), first.worst, None));
}

#[test]
fn secret_words_stay_out_of_logs() {
    let (secret, cloud) = keys(89);
    let circuit = small();
    let ins = secret.encrypt_bits(&[true, true], little(), &mut Seeded(90).source()).unwrap();
    let run = DriftRun::start(&circuit, cloud.view(), &secret, &ins, &[true, true]).unwrap();
    assert!(!format!("{run:?} {:?}", Secrets::from(&secret)).contains('['));
}
