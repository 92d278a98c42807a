//! The circuits of the program egl_cases, made by its rule: gate g of the kind 5 + g modulo 14 (or all of one kind), true where there is no wire yet; its operands the wire at a
//! third of its own, the one before it and the one at half of it; the outputs the last wires backwards, and wire 0 where there are no more.

use crate::circuits::NEEDS;

pub fn circuit(only: Option<usize>, inputs: usize, gates: usize, outputs: usize) -> Vec<u8> {
    let mut bytes = b"EGL".to_vec();
    let mut put = |x: usize| bytes.extend((x as u16).to_le_bytes());
    [1, inputs, gates, outputs].into_iter().for_each(&mut put);
    for g in 0..gates {
        let own = inputs + g;
        let kind = if own == 0 { 1 } else { only.unwrap_or((g + 5) % 14) };
        put(kind);
        for (x, wire) in [own / 3, own.saturating_sub(1), own / 2].into_iter().enumerate() {
            put(if x < NEEDS[kind] { wire } else { 0 });
        }
    }
    (0..outputs).for_each(|o| put((inputs + gates).saturating_sub(o + 1)));
    bytes
}

/// So many bytes of a circuit, zeros behind it.
fn cut(inputs: usize, gates: usize, outputs: usize, count: usize) -> Vec<u8> {
    let mut bytes = circuit(None, inputs, gates, outputs);
    bytes.resize(count, 0);
    bytes
}

/// All, in the program's order.
pub fn all() -> Vec<Vec<u8>> {
    let example = |(at, byte): (usize, u8)| {
        let mut bytes = circuit(None, 2, 1, 1);
        bytes[at] = byte;
        bytes
    };
    let lengths = [0, 10, 11, 20, 21, 22].map(|count| cut(2, 1, 1, count));
    let marks = [(0, 70), (1, 0), (2, 77), (3, 2), (3, 0), (4, 1)].map(example);
    let counts = [(256, 0, 1), (257, 0, 1), (1, 1024, 1), (1, 1025, 1), (1, 0, 0), (1, 0, 64), (1, 0, 65)].map(|(i, g, o)| circuit(None, i, g, o));
    let fields = [(11, 14), (12, 1), (13, 2), (14, 1), (15, 2), (17, 1), (18, 1)].map(example);
    let kinds = [0, 2, 3, 4, 6, 7, 8, 9, 10, 11, 12, 13].map(|kind| example((11, kind)));
    let outputs = [(19, 3), (20, 1)].map(example);
    let tables = [(0, 0, 1), (0, 5, 2), (1, 0, 1), (3, 30, 9), (4, 40, 64), (5, 7, 3), (256, 1024, 64)].map(|(i, g, o)| circuit(None, i, g, o));
    let longer = [cut(256, 1024, 64, 8332)];
    let muxes = [(3, 1, 1), (0, 3, 1), (4, 6, 2), (256, 1024, 64)].map(|(i, g, o)| circuit(Some(13), i, g, o));
    let parts: [&[Vec<u8>]; 9] = [&lengths, &marks, &counts, &fields, &kinds, &outputs, &tables, &longer, &muxes];
    parts.concat()
}
