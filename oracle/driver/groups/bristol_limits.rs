//! Chosen texts, texts on both sides of each limit, and long ones.

use crate::bristol_texts::{damage, lines, valid, written, Shape, Tokens};
use crate::compare::Tally;
use crate::source::Source;
use super::bristol::{each_byte, each_token, import};

/// Small texts whose every byte is set to every value and whose every token is replaced.
const SMALL: [&str; 7] = [
    "1 3\n1 2\n1 1\n\n2 1 0 1 2 AND\n",
    "2 4\n1 2\n1 1\n\n2 1 0 1 2 XOR\n1 1 2 3 INV\n",
    "3 4\n2 1 0\n2 1 1\n\n1 1 1 3 EQ\n1 1 3 1 EQW\n1 1 0 2 INV\n",
    "1 1\n0\n1 1\n\n1 1 0 0 EQ\n",
    "1 4\n1 2\n1 2\n\n4 2 0 1 1 0 2 3 MAND\n",
    "2 11 1 3 1 1 2 1 10 9 8 XOR 6 3 0 1 2 1 2 0 3 4 5 MAND",
    "0 2\r\n1 2\r\n1 1\r\n",
];

/// Texts whose every token is replaced.
const CHOSEN: [&str; 47] = [
    // counts: no wire, no value, sizes of 0, several values
    "0 0 0 0", "0 0 0 1 0", "0 0 3 0 0 0 2 0 0", "0 1 1 1 1 1", "0 1 1 1 0", "0 1 1 1 1 0", "0 5 3 2 0 3 2 1 4", "0 3 0 1 1", "0 3 2 1 1 1 1", "0 2 1 2 2 2 1",
    "1 2 0 1 1 1 1 0 0 EQ", "1 1 2 0 0 1 1 1 1 1 0 EQ", "2 2 0 1 2 1 1 0 1 EQ 1 1 1 0 EQW",
    // EQ's constant, a wire of the same number, and a wire that is set only by the gate itself
    "1 1 0 1 1 1 1 0 0 INV", "1 1 0 1 1 1 1 0 0 EQW", "1 1 0 1 1 1 1 1 0 EQ", "2 2 0 1 1 1 1 1 1 EQ 1 1 0 0 EQ", "2 2 0 1 1 1 1 1 1 EQ 1 1 0 0 INV",
    "2 2 0 1 1 1 1 1 1 EQ 1 1 1 0 INV", "1 2 1 1 1 1 1 1 0 1 INV", "1 2 1 1 1 1 1 1 0 1 EQ", "1 2 1 1 1 1 1 1 1 1 EQ", "1 2 1 1 1 1 1 1 1 1 INV",
    "1 4 1 3 1 1 1 1 2 3 EQ", "1 4 1 3 1 1 1 1 00000 3 EQ", "1 4 1 3 1 1 1 1 0001 3 EQ",
    // read before it is set, set twice, an input set
    "2 4 1 2 1 1 2 1 0 3 2 XOR 2 1 0 1 3 XOR", "2 4 1 2 1 1 2 1 0 1 2 XOR 2 1 0 1 2 XOR", "2 4 1 2 1 1 2 1 0 1 1 XOR 2 1 0 1 3 XOR", "2 4 1 2 1 1 2 1 0 1 2 XOR 2 1 3 1 3 XOR",
    // outputs in another order than they are set, and that are inputs
    "3 5 1 2 1 4 2 1 0 1 4 XOR 2 1 0 4 2 AND 1 1 2 3 INV", "1 3 1 2 2 2 1 2 1 1 0 2 AND",
    // MAND
    "1 3 1 2 1 1 2 1 0 1 2 MAND", "1 4 1 2 1 1 4 2 0 1 0 1 2 3 MAND", "1 5 1 2 1 1 6 3 0 1 0 1 0 1 4 2 3 MAND", "1 4 1 2 1 1 4 2 0 1 0 1 3 3 MAND",
    "1 4 1 2 1 1 4 2 0 1 0 1 2 3 AND", "1 3 0 1 1 6 3 0 0 0 0 0 0 0 1 2 MAND", "2 5 1 2 1 1 4 2 0 1 0 1 2 4 MAND 2 1 4 2 3 XOR",
    // numbers at the limit: wires, sizes, gates, operands
    "0 4294967295 1 4294967295 1 1", "0 4294967295 2 4294967295 4294967295 1 1", "4294967295 4294967295 0 1 1 1 1 0 4294967294 EQ 1 1 4294967294 7 INV",
    "2 4294967295 1 1 1 1 4294967294 2147483647 0 0 0", "1 4294967295 1 4294967294 1 1 2 1 4294967293 0 4294967294 XOR",
    // results of MAND above the wires that 48 KB have bits for
    "1 393220 1 393218 1 1 4 2 0 1 2 3 393218 393218 MAND", "1 393220 1 393218 1 1 4 2 0 1 2 3 393219 393218 MAND",
    "2 393221 1 393218 1 1 4 2 0 1 2 393217 393220 393219 MAND 2 1 393220 393219 393219 XOR",
];

/// Texts that are tried as they are.
fn odd() -> Vec<String> {
    let mut out: Vec<String> = ["", " ", "\n", "\r\n \t", "0", "5 5", "400001 400001 0 1 1 1 1 0 400000 EQ", "1 400002 1 1 1 1 1 1 0 400001 INV", "2 400002 1 400000 1 1 2 1 0 399999 400001 XOR 1 1 400001 400000 INV"]
        .map(String::from)
        .to_vec();
    let zeros = "0".repeat(5000);
    out.push(format!("{zeros}1 {zeros}3 {zeros}1 {zeros}2 {zeros}1 {zeros}1 {zeros}2 {zeros}1 {zeros}0 {zeros}1 {zeros}2 AND"));
    out.push("9".repeat(10_000));
    out.push(format!("1 {}", "9".repeat(10_000)));
    out.push(format!("{}1 3 1 2 1 1 2 1 0 1 2 XOR{}", " \t\r\n".repeat(2000), "\n".repeat(2000)));
    // many values of no size
    let none = format!("70001 1{}", " 0".repeat(70_000));
    out.push(format!("0 1 {none} {none}"));
    out.push(format!("0 1 {none} {none} 0"));
    // sizes that pass 256, 64 or the wires one by one
    for (most, number) in [(255, 1), (256, 1), (257, 1), (300, 1), (100, 3), (2, 129)] {
        let sizes = format!("{most}{}", format!(" {number}").repeat(most));
        out.push(format!("0 {} {sizes} 1 1", most * number));
        out.push(format!("0 {} {sizes} 1 1 0", most * number));
        out.push(format!("0 {} {sizes} 3 0 64 0", most * number));
        out.push(format!("0 {} {sizes} 3 0 64 1", most * number));
        out.push(format!("0 {0} 1 {0} {sizes}", most * number));
        out.push(format!("0 200 1 200 {sizes}"));
        out.push(format!("0 {} {sizes} 1 1", most * number - 1));
        out.push(format!("0 {} {sizes} 1 1", most * number + 1));
    }
    out
}

pub fn chosen(tally: &mut Tally, source: &mut Source) {
    for text in SMALL {
        import(tally, source, text.as_bytes());
        each_byte(tally, source, text.as_bytes());
    }
    for text in SMALL.into_iter().chain(CHOSEN) {
        let tokens: Tokens = text.split_whitespace().map(String::from).collect();
        each_token(tally, source, &tokens);
        for cut in 0..=text.len() {
            import(tally, source, &text.as_bytes()[..cut]);
        }
        for end in ["\n", "\r\n", "\t", "\n\n\n", "\r", "\n ", "\nEQW", "\n0"] {
            import(tally, source, format!("{text}{end}").as_bytes());
            import(tally, source, text.replace(' ', end).as_bytes());
        }
        for _ in 0..20 {
            let text = written(source, &tokens);
            import(tally, source, &text);
        }
    }
    for text in odd() {
        import(tally, source, text.as_bytes());
    }
}

/// A text of this shape and what becomes of it when something is damaged: a fault of the form behind what passes a limit has to be told first.
fn both(tally: &mut Tally, source: &mut Source, shape: Shape) {
    let shuffled = source.below(3) != 0;
    let mut tokens = valid(source, &shape, shuffled);
    let text = written(source, &tokens);
    import(tally, source, &text);
    if source.below(2) == 0 {
        let last = tokens.len() - 1;
        tokens[last] = "OR".to_string();
    } else {
        damage(source, &mut tokens);
    }
    import(tally, source, &lines(&tokens, "\n"));
}

pub fn limits(tally: &mut Tally, source: &mut Source) {
    let small = Shape { inputs: 3, gates: 4, eqw: 2, mand: 0, outputs: 2 };
    let large = Shape { inputs: 256, gates: 1024, eqw: 64, mand: 0, outputs: 64 };
    for inputs in [0, 1, 254, 255, 256, 257, 258, 300, 1000] {
        (0..6).for_each(|_| both(tally, source, Shape { inputs, ..small }));
        both(tally, source, Shape { inputs, ..large });
    }
    for outputs in [0, 1, 62, 63, 64, 65, 66, 200] {
        (0..6).for_each(|_| both(tally, source, Shape { outputs, inputs: 40, gates: 40, ..small }));
        both(tally, source, Shape { outputs, ..large });
    }
    for gates in [0, 1, 1022, 1023, 1024, 1025, 1026, 1100] {
        both(tally, source, Shape { gates, ..small });
        both(tally, source, Shape { gates, eqw: 0, ..large });
        both(tally, source, Shape { gates, eqw: 700, ..large });
        both(tally, source, Shape { gates, mand: 2, ..large });
    }
    for _ in 0..20 {
        let shape = Shape {
            inputs: source.of(&[0, 255, 256, 257]),
            gates: source.of(&[3, 1023, 1024, 1025]),
            eqw: source.of(&[0, 1, 64, 300]),
            mand: source.of(&[0, 0, 0, 1]),
            outputs: source.of(&[0, 1, 64, 65]),
        };
        both(tally, source, shape);
    }
}

/// Texts of a block cipher's and of a hash's size; one of 30,000 EQW besides 100 gates; and one with more wires than 48 KB have bits.
pub fn long(tally: &mut Tally, source: &mut Source) {
    for gates in [36_000, 135_000] {
        let mut tokens = valid(source, &Shape { inputs: 256, gates, eqw: 0, mand: 0, outputs: 64 }, false);
        import(tally, source, &lines(&tokens, "\n"));
        // a fault in the last gate comes first all the same
        let last = tokens.len() - 1;
        tokens[last] = "OR".to_string();
        import(tally, source, &lines(&tokens, "\n"));
    }
    let tokens = valid(source, &Shape { inputs: 256, gates: 100, eqw: 30_000, mand: 0, outputs: 64 }, true);
    import(tally, source, &lines(&tokens, "\n"));
    wide(tally, source);
}

/// More wires than 48 KB have bits, so that no table of a call's own has a bit for each. The highest numbers are set by the first gates, then come EQW for nearly all others, of an input
/// or, now and then, of the one before; the last gates read one of either. Few wires are read, since each may have to be looked for in the whole text.
fn wide(tally: &mut Tally, source: &mut Source) {
    const BITS: usize = 8 * 48 * 1024;
    const WIRES: usize = BITS + 100;
    let high: Vec<usize> = (BITS - 20..WIRES).rev().collect();
    let low: Vec<usize> = (18..BITS - 20).collect();
    let mut tokens: Tokens = [WIRES - 16, WIRES, 1, 16, 1, 3].map(|x| x.to_string()).to_vec();
    let mut line = |operands: &[usize], result: usize, name: &str| {
        tokens.extend([operands.len(), 1].iter().chain(operands).chain([&result]).map(|x| x.to_string()));
        tokens.push(name.to_string());
    };
    line(&[0], high[0], "INV");
    for pair in high.windows(2) {
        line(&[pair[0], source.below(16) as usize], pair[1], if source.below(2) == 0 { "XOR" } else { "AND" });
    }
    line(&[3], low[0], "EQW");
    low.windows(2).for_each(|pair| line(&[if source.below(8) == 0 { pair[0] } else { source.below(16) as usize }], pair[1], "EQW"));
    for wire in 16..18 {
        line(&[high[wire], source.of(&low)], wire, "AND");
    }
    let text = lines(&tokens, "\n");
    import(tally, source, &text);
    // in the last gate: an unset wire is read, an unknown one, a high wire is set again, an input is set again
    let last = tokens.len() - 1;
    for (at, wire) in [(last - 2, 17), (last - 2, WIRES), (last - 1, high[3]), (last - 1, 15)] {
        let mut other = tokens.clone();
        other[at] = wire.to_string();
        import(tally, source, &lines(&other, "\n"));
    }
}
