//! The six parameters: which are in range, and the numbers that lengths and bounds depend on.

/// The numbers that lengths and bounds depend on, for parameters in range.
pub struct Sizes {
    pub n: usize,
    pub ring: usize,
    pub l: usize,
    pub base: usize,
    pub t: usize,
}

impl Sizes {
    pub fn of(p: &[u32; 6]) -> Sizes {
        Sizes { n: p[0] as usize, ring: 1 << p[1], l: p[3] as usize, base: 1 << p[4], t: p[5] as usize }
    }
    /// Words of the rows of one key bit.
    pub fn rows(&self) -> usize {
        2 * self.l * 2 * self.ring
    }
    pub fn bootstrapping(&self) -> usize {
        self.n * self.rows()
    }
    /// Rows of the switching key: each has a noise word, n masks and n + 1 words.
    pub fn switching_rows(&self) -> usize {
        (self.base - 1) * self.t * self.ring
    }
    pub fn switching(&self) -> usize {
        self.switching_rows() * (self.n + 1)
    }
    /// The place of row (i, j, k) among these rows, k from 1 on, by document 02's formula.
    pub fn place(&self, [i, j, k]: [usize; 3]) -> usize {
        (self.base - 1) * (self.t * i + j) + k - 1
    }
    /// Words of a switching key with idle rows.
    pub fn former_switching(&self) -> usize {
        self.base * self.t * self.ring * (self.n + 1)
    }
}

pub fn in_range(p: &[u32; 6]) -> bool {
    let [n, nbit, bgbit, l, basebit, t] = p.map(u64::from);
    (1..=1100).contains(&n)
        && (1..=10).contains(&nbit)
        && (1..=24).contains(&bgbit)
        && l >= 1
        && l * bgbit <= 32
        && (1..=6).contains(&basebit)
        && t >= 1
        && basebit * t <= 30
}
