//! Keys that hold junk: what a gate makes of them means nothing, and has to be the same word for word.

use crate::exact;
use crate::honest::Keys;
use crate::sizes::Sizes;
use crate::source::Source;

/// Any words in every row.
pub fn keys(source: &mut Source, p: [u32; 6]) -> Keys {
    let s = Sizes::of(&p);
    let (switching, bootstrapping) = (source.words(s.switching()), source.words(s.bootstrapping()));
    Keys { p, key_lv0: Vec::new(), key_lv1: Vec::new(), switching, bootstrapping }
}

/// Keys with other words in every row that no gate of a run uses, told by what its gates switched: the switching key's rows that no field chose, and the whole
/// bootstrapping key where nothing was rotated.
pub fn elsewhere(source: &mut Source, keys: &Keys, samples: &[Vec<u32>]) -> Keys {
    let (p, words) = (keys.p, keys.p[0] as usize + 1);
    let mut used = vec![false; keys.switching.len() / words];
    samples.iter().flat_map(|s| exact::chosen(&p, s)).for_each(|row| used[row] = true);
    let mut junk = |x: &u32| x.wrapping_add(1 + (source.next() >> 40) as u32);
    let mut switching = keys.switching.clone();
    for (row, _) in switching.chunks_mut(words).zip(used).filter(|(_, used)| !used) {
        row.iter_mut().for_each(|x| *x = junk(x));
    }
    let bootstrapping = if samples.is_empty() { keys.bootstrapping.iter().map(junk).collect() } else { keys.bootstrapping.clone() };
    Keys { p, key_lv0: Vec::new(), key_lv1: Vec::new(), switching, bootstrapping }
}
