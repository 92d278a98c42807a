//! The seeded source of cases (splitmix64), with a liking for the limits.

pub struct Source(u64);

/// Words at the limits of a torus word's reading.
const LIMITS: [u32; 12] = [
    0, 1, 2, 0xFFFF_FFFF, 0xFFFF_FFFE, 0x8000_0000, 0x7FFF_FFFF, 0x8000_0001, 0x2000_0000, 0xE000_0000, 0x1FFF_FFFF, 0xDFFF_FFFF,
];

impl Source {
    pub fn new(seed: u64, name: &str) -> Source {
        let mut s = Source(seed);
        for byte in name.bytes() {
            s.0 = s.next() ^ byte as u64;
        }
        s
    }

    pub fn next(&mut self) -> u64 {
        self.0 = self.0.wrapping_add(0x9E37_79B9_7F4A_7C15);
        let mut z = self.0;
        z = (z ^ (z >> 30)).wrapping_mul(0xBF58_476D_1CE4_E5B9);
        z = (z ^ (z >> 27)).wrapping_mul(0x94D0_49BB_1331_11EB);
        z ^ (z >> 31)
    }

    pub fn below(&mut self, bound: u64) -> u64 {
        self.next() % bound
    }

    pub fn of<T: Copy>(&mut self, list: &[T]) -> T {
        list[self.below(list.len() as u64) as usize]
    }

    pub fn word(&mut self) -> u32 {
        match self.below(8) {
            0 | 1 => self.of(&LIMITS),
            // a multiple of a power of two, or its neighbour: where roundings turn
            2 | 3 => {
                let w = (self.next() as u32) << self.below(32);
                w.wrapping_add(self.below(3) as u32).wrapping_sub(1)
            }
            _ => self.next() as u32,
        }
    }

    /// Mostly random words; now and then all alike, or a single one that is not zero.
    pub fn words(&mut self, len: usize) -> Vec<u32> {
        match self.below(16) {
            0 => vec![self.word(); len],
            1 => vec![u32::MAX; len],
            2 if len > 0 => {
                let mut out = vec![0; len];
                out[self.below(len as u64) as usize] = self.word();
                out
            }
            3 => (0..len).map(|_| self.word()).collect(),
            _ => (0..len).map(|_| self.next() as u32).collect(),
        }
    }

    /// A secret key: words 0 or 1, now and then all alike.
    pub fn key(&mut self, len: usize) -> Vec<u32> {
        match self.below(12) {
            0 => vec![1; len],
            1 => vec![0; len],
            _ => (0..len).map(|_| (self.next() >> 40) as u32 & 1).collect(),
        }
    }

    pub fn bytes(&mut self, len: usize) -> Vec<u8> {
        (0..len).map(|_| if self.below(3) == 0 { 0 } else { self.next() as u8 }).collect()
    }

    /// A double of any kind: any bits, each exponent, whole steps of the torus and their
    /// neighbours, halves, infinities, not-numbers, subnormal ones, both zeros.
    pub fn double(&mut self) -> f64 {
        let sign = (self.next() & 1) << 63;
        let mantissa = self.next() >> 12;
        match self.below(10) {
            0 => f64::from_bits(self.next()),
            1 => f64::from_bits(sign | self.below(2048) << 52 | mantissa),
            2 => f64::from_bits(sign | mantissa >> self.below(52)),
            3 => f64::from_bits(sign | self.of(&[0, 0x7FF << 52, 0x7FF << 52 | 1, 0x7FF << 52 | mantissa, 1, 0x3FF << 52])),
            4 => self.of(&[0.125, -0.125, 0.25, -0.25, 0.5, -0.5, 1.75, -1.75, 0.0, -0.0, 1.0, -1.0]),
            5 | 6 => {
                let step = (self.next() as i64 >> self.below(64)) as f64 / 4294967296.0;
                f64::from_bits(step.to_bits().wrapping_add(self.below(3)).wrapping_sub(1))
            }
            7 => (self.next() as i32 as f64 + 0.5) / 4294967296.0,
            _ => f64::from_bits(sign | (1023 - 40 + self.below(100)) << 52 | mantissa),
        }
    }
}
