//! Texts in the Bristol Fashion form: what each name becomes, where a text is refused, and that a circuit comes back from its text with the same meaning.

use crate::seeded::{circuit, keys, little, Seeded};
use egl::{Builder, Circuit, Kind, Refusal};

/// A full adder, its wires numbered in no order: inputs a, b and a carry, outputs the sum and the next carry.
const ADDER: &str = "6 9\n2 2 1\n1 2\n\n2 1 0 1 6 XOR\n2 1 0 1 4 AND\n2 1 2 6 3 XOR\n2 1 6 2 5 AND\n2 1 5 4 8 XOR\n1 1 3 7 EQW\n";

fn import(text: &str) -> Result<Circuit, Refusal> {
    Circuit::from_bristol(text.as_bytes())
}

/// All rows of so many bits.
fn rows(inputs: usize) -> impl Iterator<Item = Vec<bool>> {
    (0..1usize << inputs).map(move |row| (0..inputs).map(|i| row >> i & 1 != 0).collect())
}

fn kinds(circuit: &Circuit) -> Vec<Kind> {
    (0..circuit.gates()).filter_map(|g| circuit.kind(g)).collect()
}

#[test]
fn a_text_becomes_its_circuit() {
    let adder = import(ADDER).unwrap();
    assert_eq!((adder.inputs(), kinds(&adder)), (3, vec![Kind::Xor, Kind::And, Kind::Xor, Kind::And, Kind::Xor]));
    // EQW makes no gate: the first output is the wire that it copies.
    assert_eq!(adder.outputs(), [5, 7]);
    for bits in rows(3) {
        let sum = bits.iter().filter(|bit| **bit).count();
        assert_eq!(adder.run_plain(&bits), Ok(vec![sum & 1 != 0, sum > 1]));
    }
}

#[test]
fn each_name_becomes_its_kind() {
    for (gate, kind, meant) in [
        ("2 1 0 1 2 XOR", Some(Kind::Xor), [false, true, true, false]),
        ("2 1 0 1 2 AND", Some(Kind::And), [false, false, false, true]),
        ("1 1 1 2 INV", Some(Kind::Not), [true, true, false, false]),
        ("1 1 0 2 EQ", Some(Kind::False), [false; 4]),
        ("1 1 1 2 EQ", Some(Kind::True), [true; 4]),
        ("1 1 1 2 EQW", None, [false, false, true, true]),
    ] {
        let circuit = import(&format!("1 3 1 2 1 1 {gate}")).unwrap();
        assert_eq!(kinds(&circuit), Vec::from_iter(kind), "{gate}");
        for (bits, out) in rows(2).zip(meant) {
            assert_eq!(circuit.run_plain(&bits), Ok(vec![out]), "{gate} {bits:?}");
        }
    }
}

#[test]
fn blanks_and_zeros_mean_nothing() {
    let adder = import(ADDER).unwrap();
    for (from, to) in [("\n", "\r\n"), ("\n", " "), (" ", "\t"), (" ", "\n"), (" ", " \t\r\n"), (" ", " 00"), ("\n2 ", "\n0000000000000000000002 ")] {
        // Zeros belong in front of numbers alone.
        let text = ADDER.replace(from, to).replace("00XOR", "XOR").replace("00AND", "AND").replace("00EQW", "EQW");
        assert_eq!(import(&text).as_ref(), Ok(&adder), "{text:?}");
        assert_eq!(import(text.trim_end()).as_ref(), Ok(&adder), "{text:?}");
        assert_eq!(import(&format!(" \t\r\n{text}\n\n")).as_ref(), Ok(&adder), "{text:?}");
    }
}

/// A text with `^` in front of the token at fault, or at its end: the text, and the place.
fn marked(text: &str) -> (String, u32) {
    (text.replace('^', ""), text.find('^').unwrap() as u32)
}

#[test]
fn a_text_that_is_not_in_the_form_is_11_at_its_token() {
    for text in [
        // The text ends where a token is due.
        "^",
        " \n^",
        "1^",
        "1 3 1 2 1^",
        "1 3 1 2 1 1 2 1 0 1 2^",
        "1 3 1 2 1 1 2 1 0 1 2 \r\n^",
        // No number, and numbers at 2^32.
        "^x 3 1 2 1 1 2 1 0 1 2 AND",
        "^-1 3 1 2 1 1 2 1 0 1 2 AND",
        "1 ^4294967296 1 2 1 1 2 1 0 1 2 AND",
        "1 3 1 ^18446744073709551618 1 1 2 1 0 1 2 AND",
        // A byte that is no blank of the form.
        "1 3 1 ^2\u{b}1 1 2 1 0 1 2 AND",
        "1 3 1 ^2\u{c}1 1 2 1 0 1 2 AND",
        // Counts that cannot be.
        "1 ^0 1 2 1 1 2 1 0 1 2 AND",
        "1 3 1 ^3 1 1 2 1 0 1 2 AND",
        "1 3 2 2 ^1 1 1 2 1 0 1 2 AND",
        "1 3 2 2 ^4294967295 1 1 2 1 0 1 2 AND",
        "0 3 1 ^2 1 1",
        "1 3 1 2 1 ^4 2 1 0 1 2 AND",
        // The numbers of operands and results.
        "1 3 1 2 1 1 ^0 1 2 EQ",
        "1 3 1 2 1 1 ^3 1 0 1 0 2 AND",
        "1 3 1 2 1 1 2 ^2 0 1 2 AND",
        "1 4 1 2 1 1 ^2 1 0 1 2 AND",
        // Operands and results.
        "1 3 1 2 1 1 2 1 0 ^2 2 AND",
        "1 3 1 2 1 1 1 1 ^2 2 INV",
        "2 4 1 2 1 1 2 1 0 ^3 2 AND 2 1 0 1 3 AND",
        "1 3 1 2 1 1 2 1 0 1 ^1 AND",
        "1 3 1 2 1 1 2 1 0 1 ^3 AND",
        "2 4 1 2 1 1 2 1 0 1 3 AND 2 1 0 1 ^3 AND",
        // Names.
        "1 3 1 2 1 1 2 1 0 1 2 ^NAND",
        "1 3 1 2 1 1 2 1 0 1 2 ^and",
        "1 3 1 2 1 1 2 1 0 1 2 ^ANDY",
        "1 3 1 2 1 1 2 1 0 1 2 ^INV",
        "1 3 1 2 1 1 1 1 1 2 ^AND",
        "1 1 0 1 1 1 1 1 0 ^INV",
        "1 4 1 3 1 1 1 1 2 3 ^EQ",
        // More than the form has.
        "1 3 1 2 1 1 2 1 0 1 2 AND ^AND",
        "1 3 1 2 1 1 2 1 0 1 2 AND\n^\0",
    ] {
        let (text, place) = marked(text);
        assert_eq!(import(&text), Err(Refusal::TextForm { place }), "{text:?}");
    }
}

#[test]
fn what_no_circuit_carries_is_12_at_its_token() {
    for text in [
        "1 3 1 2 1 1 2 1 0 1 2 ^MAND",
        "1 6 1 4 1 1 4 2 0 1 2 3 5 4 ^MAND",
        "1 3 1 2 1 ^0 2 1 0 1 2 AND",
        "1 3 1 2 ^0 2 1 0 1 2 AND",
        "2 5 1 3 1 ^0 2 1 0 1 3 MAND 2 1 0 1 4 AND",
    ] {
        let (text, place) = marked(text);
        assert_eq!(import(&text), Err(Refusal::TextLimit { place }), "{text:?}");
    }
    // A fault of the form anywhere comes first.
    let (text, place) = marked("2 4 1 2 1 0 2 1 0 1 2 MAND 2 1 0 1 3 ^NOR");
    assert_eq!(import(&text), Err(Refusal::TextForm { place }));
}

/// A text with so many inputs and outputs, so many gates INV, and an EQW for each output, and the places of its tokens.
fn sized(inputs: usize, gates: usize, outputs: usize) -> (String, Vec<usize>) {
    let mut text = format!("{} {}\n1 {inputs}\n1 {outputs}\n\n", gates + outputs, inputs + gates + outputs);
    for g in 0..gates + outputs {
        text += &format!("1 1 {} {} {}\n", g, inputs + g, if g < gates { "INV" } else { "EQW" });
    }
    let places = text.match_indices(|c: char| !c.is_whitespace()).map(|(at, _)| at);
    let starts = places.filter(|at| *at == 0 || text.as_bytes()[at - 1].is_ascii_whitespace()).collect();
    (text, starts)
}

#[test]
fn limits_on_both_sides() {
    let largest = import(&sized(256, 1024, 64).0).unwrap();
    assert_eq!((largest.inputs(), largest.gates(), largest.outputs().len(), largest.bytes().len()), (256, 1024, 64, 11 + 8 * 1024 + 2 * 64));
    // The token that shows it: the size of the inputs, that of the outputs, the name of the 1,025th gate.
    for (inputs, gates, outputs, token) in
        [(257, 1024, 64, 3), (256, 1025, 64, 6 + 5 * 1024 + 4), (256, 1024, 65, 5), (256, 2000, 64, 6 + 5 * 1024 + 4), (300, 2000, 70, 3)]
    {
        let (text, places) = sized(inputs, gates, outputs);
        assert_eq!(import(&text), Err(Refusal::TextLimit { place: places[token] as u32 }), "{inputs} {gates} {outputs}");
    }
    // EQW is no gate of the circuit: 3,000 of them one after another are its input.
    let many = (0..3_000).fold("3000 3001 1 1 1 1".to_string(), |text, g| format!("{text}\n1 1 {g} {} EQW", g + 1));
    let copy = import(&many).unwrap();
    assert_eq!((copy.gates(), copy.outputs()), (0, &[0][..]));
    assert_eq!(copy.run_plain(&[true]), Ok(vec![true]));
}

#[test]
fn each_kind_is_written_in_its_lines() {
    for (kind, lines) in [
        (Kind::False, &["1 1 0 3 EQ"][..]),
        (Kind::True, &["1 1 1 3 EQ"]),
        (Kind::Not, &["1 1 0 3 INV"]),
        (Kind::And, &["2 1 0 1 3 AND"]),
        (Kind::Or, &["2 1 0 1 3 XOR", "2 1 0 1 4 AND", "2 1 3 4 5 XOR"]),
        (Kind::Nand, &["2 1 0 1 3 AND", "1 1 3 4 INV"]),
        (Kind::Nor, &["1 1 0 3 INV", "1 1 1 4 INV", "2 1 3 4 5 AND"]),
        (Kind::Xor, &["2 1 0 1 3 XOR"]),
        (Kind::Xnor, &["2 1 0 1 3 XOR", "1 1 3 4 INV"]),
        (Kind::AndNy, &["1 1 0 3 INV", "2 1 3 1 4 AND"]),
        (Kind::AndYn, &["1 1 1 3 INV", "2 1 0 3 4 AND"]),
        (Kind::OrNy, &["1 1 1 3 INV", "2 1 0 3 4 AND", "1 1 4 5 INV"]),
        (Kind::OrYn, &["1 1 0 3 INV", "2 1 3 1 4 AND", "1 1 4 5 INV"]),
        (Kind::Mux, &["2 1 1 2 3 XOR", "2 1 0 3 4 AND", "2 1 4 2 5 XOR"]),
    ] {
        let mut builder = Builder::new(3);
        let operands: Vec<_> = (0..kind.operands()).map(|i| builder.input(i)).collect();
        let out = builder.gate(kind, &operands);
        builder.output(out);
        let last = 2 + lines.len();
        let text = format!("{} {}\n1 3\n1 1\n\n{}\n1 1 {last} {} EQW\n", lines.len() + 1, lines.len() + 4, lines.join("\n"), last + 1);
        assert_eq!(builder.build().unwrap().to_bristol(), Ok(text), "{kind:?}");
    }
}

/// The circuit of a circuit's text runs like it on all inputs.
#[test]
fn a_circuit_comes_back_with_its_meaning() {
    let mut seeded = Seeded(70);
    for round in 0..150 {
        let (inputs, gates, outputs) = (seeded.below(7), 1 + seeded.below(30), 1 + seeded.below(8));
        let (circuit, listed, _) = circuit(&mut seeded, inputs, gates, outputs);
        let text = circuit.to_bristol().unwrap();
        let back = import(&text).unwrap();
        let lines: usize = listed.iter().map(|(kind, _)| [1, 1, 1, 1, 3, 2, 3, 1, 2, 2, 2, 3, 3, 3][usize::from(kind.number())]).sum();
        assert_eq!((back.inputs(), back.gates(), back.outputs().len()), (inputs, lines, outputs));
        for bits in rows(inputs) {
            assert_eq!(back.run_plain(&bits), circuit.run_plain(&bits), "round {round}");
        }
        // A text of XOR, AND, INV and EQ alone is written as it stands.
        assert_eq!(back.to_bristol().unwrap(), text);
    }
}

#[test]
fn the_largest_circuit_has_a_text() {
    let built = |gates: usize| {
        let mut builder = Builder::new(256);
        let mut last = builder.input(255);
        for _ in 0..gates {
            last = builder.gate(Kind::Mux, &[last, last, last]);
        }
        (0..64).for_each(|_| builder.output(last));
        builder.build().unwrap()
    };
    let text = built(1024).to_bristol().unwrap();
    assert!(text.is_ascii() && text.starts_with("3136 3392\n1 256\n1 64\n\n") && text.lines().count() == 4 + 3136);
    // A mux is three gates of the text, so an import stops at the second line of the 342nd.
    let first = text.lines().take(4 + 1024).map(|line| line.len() + 1).sum::<usize>();
    let name = text.lines().nth(4 + 1024).map(|line| line.len() - 3).unwrap();
    assert_eq!(import(&text), Err(Refusal::TextLimit { place: (first + name) as u32 }));
    assert!(import(&built(341).to_bristol().unwrap()).is_ok());
}

/// An imported circuit on encrypted bits.
#[test]
fn an_imported_circuit_runs_encrypted() {
    let (secret, cloud) = keys(71);
    let adder = import(ADDER).unwrap();
    for bits in rows(3) {
        let ins = secret.encrypt_bits(&bits, little(), &mut Seeded(72).source()).unwrap();
        let out = adder.evaluate(cloud.view(), &ins).unwrap();
        assert_eq!(secret.decrypt_bits(&out).unwrap(), adder.run_plain(&bits).unwrap());
    }
}

/// Any bytes get an answer, and a place inside the text or at its end.
#[test]
fn any_text_gets_an_answer() {
    let mut seeded = Seeded(73);
    let mut taken = 0;
    for _ in 0..4_000 {
        let mut text = ADDER.as_bytes().to_vec();
        let at = seeded.below(text.len());
        text[at] = [b' ', b'\n', b'0' + seeded.below(10) as u8, seeded.next() as u8][seeded.below(4)];
        if seeded.below(4) == 0 {
            text.truncate(seeded.below(text.len()));
        }
        match Circuit::from_bristol(&text) {
            Ok(circuit) => {
                taken += 1;
                assert!(circuit.run_plain(&vec![true; circuit.inputs()]).is_ok());
            }
            Err(Refusal::TextForm { place } | Refusal::TextLimit { place }) => assert!(place as usize <= text.len()),
            Err(refusal) => panic!("{refusal}"),
        }
    }
    assert!(taken >= 300, "{taken}");
}
