//! A drift report for the key room: runs many random circuits on encrypted bits with their drift, merges the reports of the runs, and prints a line, a table and a chart
//! of how large the wires' drifts were. Where a run is told inside, its outputs are decrypted and held to the plain run; the status is 1 if any bit is wrong. Where
//! it is not, the bits are not guaranteed and nobody looks at them.
//!
//!     drift_report [SET [CIRCUITS [csv]]]
//!
//! SET is a published set (80, 110, 128, uint1 to uint6), practice, or small, the default: a set of this example's own, quick and without secrecy, whose noise is so large that
//! some runs are outside. CIRCUITS is how many are run, 150 by default; at a published set one of them takes minutes. With `csv` the report is printed as CSV and
//! everything else goes to standard error. A report is of at most 65,535 wires: where the next run's do not fit, another report is started, and that is said.
//!
//! Circuits, bits, keys and noise are drawn from a fixed seed, so that a run can be repeated: such keys are secret to nobody.

mod progress;

use egl::{sets, Builder, Circuit, DriftReport, DriftRun, Kind, Noise, OwnedCloudKey, Params, Refusal, SecretKeys};
use std::error::Error;
use std::process::exit;

/// Marks of a chart's longest bar.
const WIDTH: u16 = 60;

/// A generator with a fixed seed (splitmix64). It is no source for keys that matter.
struct Seeded(u64);

impl Seeded {
    fn next(&mut self) -> u64 {
        self.0 = self.0.wrapping_add(0x9E37_79B9_7F4A_7C15);
        let mut z = self.0;
        z = (z ^ (z >> 30)).wrapping_mul(0xBF58_476D_1CE4_E5B9);
        z = (z ^ (z >> 27)).wrapping_mul(0x94D0_49BB_1331_11EB);
        z ^ (z >> 31)
    }

    fn below(&mut self, limit: usize) -> usize {
        (self.next() % limit as u64) as usize
    }

    /// As the wrapper takes a source: a closure.
    fn source(&mut self) -> impl FnMut(&mut [u8]) + '_ {
        move |bytes| bytes.chunks_mut(8).for_each(|part| part.iter_mut().zip(self.next().to_le_bytes()).for_each(|(to, byte)| *to = byte))
    }
}

/// The set of a name. The small one's bootstrapping key has noise that brings the drift of a gate to some 2^27, where an eighth of a turn is 2^29.
fn set_of(name: &str) -> Option<sets::Set> {
    match name {
        "small" => Some(sets::Set { name: "small", params: Params::new(8, 5, 7, 4, 3, 5), noise: Noise::new(1.0e-6, 2.4e-5).ok()? }),
        name => sets::by_name(name),
    }
}

/// A circuit of up to 8 inputs and 40 gates of any kinds.
fn random_circuit(seeded: &mut Seeded) -> Result<Circuit, Refusal> {
    let (inputs, gates, outputs) = (1 + seeded.below(8), 1 + seeded.below(40), 1 + seeded.below(8));
    let mut builder = Builder::new(inputs);
    let mut wires: Vec<_> = (0..inputs).map(|i| builder.input(i)).collect();
    for _ in 0..gates {
        let kind = Kind::ALL[seeded.below(Kind::ALL.len())];
        let operands: Vec<_> = (0..kind.operands()).map(|_| wires[seeded.below(wires.len())]).collect();
        wires.push(builder.gate(kind, &operands));
    }
    (0..outputs).for_each(|_| builder.output(wires[seeded.below(wires.len())]));
    builder.build()
}

/// Puts a run's wires behind those of the runs before it: into the last report, or into another where they do not fit that one any more.
fn add(reports: &mut Vec<DriftReport>, run: DriftReport) -> Result<(), Refusal> {
    let last = reports.last_mut().map_or(Err(Refusal::ReportWires), |last| last.absorb(&run));
    match last {
        Err(Refusal::ReportWires) => {
            reports.push(run);
            Ok(())
        }
        other => other,
    }
}

/// How the runs went: how many were told inside, and of these how many decrypted to the plain run's bits.
#[derive(Default)]
struct Told {
    inside: usize,
    right: usize,
}

/// Runs every circuit; the reports, and how the runs went.
fn runs(circuits: &[Circuit], set: sets::Set, seeded: &mut Seeded) -> Result<(Vec<DriftReport>, Told), Box<dyn Error>> {
    eprintln!("making the keys at set {}", set.name);
    let secret = SecretKeys::draw(set.params, &mut seeded.source())?;
    let cloud = OwnedCloudKey::draw(&secret, set.noise, &mut seeded.source())?;
    let works = circuits.iter().map(Circuit::work).collect::<Result<Vec<_>, _>>()?;
    let mut line = progress::Line::start("rotations", works.iter().map(|work| *work as usize).sum());
    let (mut reports, mut told, mut done) = (Vec::new(), Told::default(), 0);
    for (at, (circuit, work)) in circuits.iter().zip(works).enumerate() {
        let bits: Vec<bool> = (0..circuit.inputs()).map(|_| seeded.below(2) == 1).collect();
        let ins = secret.encrypt_bits(&bits, set.noise, &mut seeded.source())?;
        let doing = format!("circuit {} of {}", at + 1, circuits.len());
        let watch = |gate: egl::GateDrift| line.at(done + circuit.work_to(gate.progress.done) as usize, &doing);
        let run = DriftRun::start(circuit, cloud.view(), &secret, &ins, &bits)?.finish(watch)?;
        done += work as usize;
        add(&mut reports, run.report()?)?;
        if run.inside() == Some(true) {
            told.inside += 1;
            told.right += usize::from(secret.decrypt_bits(&run.outputs()?)? == circuit.run_plain(&bits)?);
        }
    }
    line.clear();
    Ok((reports, told))
}

/// Whether each run that was told inside decrypted to the plain run's bits.
fn run(set: sets::Set, count: usize, csv: bool) -> Result<bool, Box<dyn Error>> {
    let mut seeded = Seeded(5);
    let circuits = (0..count).map(|_| random_circuit(&mut seeded)).collect::<Result<Vec<_>, _>>()?;
    let (mut reports, told) = runs(&circuits, set, &mut seeded)?;
    let Told { inside, right } = told;
    let (outside, width) = (count - inside, count.to_string().len());
    let summary = format!(
        "{count} circuits at set {}\n{inside:>width$} runs inside, of which {right} decrypted to the plain run's bits\n{outside:>width$} runs outside, whose bits are not guaranteed\n",
        set.name
    );
    if csv {
        eprintln!("{summary}");
    } else {
        println!("{summary}");
    }
    if reports.len() > 1 {
        eprintln!("the wires do not fit one report, which has at most {}: there are {}", DriftReport::WIRES, reports.len());
    }
    if reports.is_empty() {
        reports.push(DriftReport::empty());
    }
    for (at, report) in reports.iter().enumerate() {
        if at > 0 {
            println!();
        }
        if csv {
            print!("{}", report.csv());
        } else {
            print!("{report}\n\n{}\n{}", report.table(), report.chart(WIDTH));
        }
    }
    Ok(right == inside)
}

fn main() {
    let args: Vec<String> = std::env::args().skip(1).collect();
    let set = set_of(args.first().map_or("small", String::as_str));
    let count = args.get(1).map_or(Ok(150), |text| text.parse::<usize>());
    let csv = match args.get(2).map(String::as_str) {
        None => Some(false),
        Some("csv") => Some(true),
        Some(_) => None,
    };
    let outcome = match (set, count, csv) {
        (Some(set), Ok(count), Some(csv)) if args.len() <= 3 => run(set, count, csv),
        _ => {
            eprintln!("drift_report [80|110|128|uint1..uint6|practice|small [CIRCUITS [csv]]]");
            exit(2)
        }
    };
    match outcome {
        Ok(true) => {}
        Ok(false) => exit(1),
        Err(error) => {
            eprintln!("drift_report: {error}");
            exit(3)
        }
    }
}
