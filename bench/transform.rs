//! A product by a transform in doubles, for scale: N/2 complex points, tables made once.
//! It is not exact for all words, which is why the library does not use it.

type Complex = (f64, f64);

fn times(x: Complex, y: Complex) -> Complex {
    (x.0 * y.0 - x.1 * y.1, x.0 * y.1 + x.1 * y.0)
}

pub struct Transform {
    twist: Vec<Complex>,
    /// The roots of each level, one after the other.
    roots: Vec<Vec<Complex>>,
    swap: Vec<usize>,
}

impl Transform {
    pub fn new(n: usize) -> Transform {
        let h = n / 2;
        let root = |k: usize, turn: usize| {
            let angle = 2.0 * std::f64::consts::PI * k as f64 / turn as f64;
            (angle.cos(), angle.sin())
        };
        let bits = h.trailing_zeros();
        Transform {
            twist: (0..h).map(|j| root(j, 2 * n)).collect(),
            roots: (1..=bits).map(|b| (0..1 << (b - 1)).map(|k| root(k, 1 << b)).collect()).collect(),
            swap: (0..h).map(|i| if bits == 0 { 0 } else { i.reverse_bits() >> (usize::BITS - bits) }).collect(),
        }
    }

    fn cyclic(&self, z: &mut [Complex], back: bool) {
        for i in 0..z.len() {
            if i < self.swap[i] {
                z.swap(i, self.swap[i]);
            }
        }
        let sign = if back { -1.0 } else { 1.0 };
        for roots in &self.roots {
            for block in z.chunks_exact_mut(2 * roots.len()) {
                let (low, high) = block.split_at_mut(roots.len());
                for ((u, v), w) in low.iter_mut().zip(high).zip(roots) {
                    let x = times(*v, (w.0, sign * w.1));
                    *v = (u.0 - x.0, u.1 - x.1);
                    *u = (u.0 + x.0, u.1 + x.1);
                }
            }
        }
    }

    pub fn forward(&self, a: &[u32]) -> Vec<Complex> {
        let h = a.len() / 2;
        let mut z: Vec<Complex> = (0..h).map(|j| times((a[j] as i32 as f64, a[j + h] as i32 as f64), self.twist[j])).collect();
        self.cyclic(&mut z, false);
        z
    }

    pub fn product(&self, a: &[u32], b: &[u32], out: &mut [u32]) {
        let h = a.len() / 2;
        let (x, y) = (self.forward(a), self.forward(b));
        let mut z: Vec<Complex> = x.iter().zip(&y).map(|(u, v)| times(*u, *v)).collect();
        self.cyclic(&mut z, true);
        for j in 0..h {
            let (re, im) = times(z[j], (self.twist[j].0, -self.twist[j].1));
            out[j] = (re / h as f64).round() as i64 as u32;
            out[j + h] = (im / h as f64).round() as i64 as u32;
        }
    }
}
