//! Stands in for the transform, which is not given. `poly_mul` is the exact product modulo
//! X^N + 1 and 2^32; `ifft` and `fft` are an honest negacyclic transform in doubles:
//! the N/2 values at the roots exp(i pi (4k + 1) / N), times 2, since the caller halves
//! each product of two transforms.

use super::FFTProcessor;
use crate::params::Torus;

type Complex = (f64, f64);

fn times(x: Complex, y: Complex) -> Complex {
    (x.0 * y.0 - x.1 * y.1, x.0 * y.1 + x.1 * y.0)
}

fn root(step: usize, turn: usize) -> Complex {
    let angle = 2.0 * std::f64::consts::PI * step as f64 / turn as f64;
    (angle.cos(), angle.sin())
}

pub struct KlemsaProcessor {
    twist: Vec<Complex>,
    roots: Vec<Complex>,
}

impl KlemsaProcessor {
    /// The cyclic transform in place, forward (sign +) or backward (sign -, not scaled).
    fn cyclic(&self, z: &mut [Complex], back: bool) {
        let h = z.len();
        let mut j = 0;
        for i in 1..h {
            let mut bit = h >> 1;
            while j & bit != 0 {
                j ^= bit;
                bit >>= 1;
            }
            j |= bit;
            if i < j {
                z.swap(i, j);
            }
        }
        let mut len = 2;
        while len <= h {
            for start in (0..h).step_by(len) {
                for k in 0..len / 2 {
                    let (re, im) = self.roots[k * (h / len)];
                    let w = if back { (re, -im) } else { (re, im) };
                    let u = z[start + k];
                    let v = times(z[start + k + len / 2], w);
                    z[start + k] = (u.0 + v.0, u.1 + v.1);
                    z[start + k + len / 2] = (u.0 - v.0, u.1 - v.1);
                }
            }
            len *= 2;
        }
    }
}

impl FFTProcessor for KlemsaProcessor {
    fn new(n: usize) -> Self {
        KlemsaProcessor {
            twist: (0..n / 2).map(|j| root(j, 2 * n)).collect(),
            roots: (0..n / 2).map(|j| root(j, n / 2)).collect(),
        }
    }

    fn ifft<const N: usize>(&mut self, input: &[Torus; N]) -> [f64; N] {
        let h = N / 2;
        let mut z: Vec<Complex> = (0..h)
            .map(|j| times((input[j] as i32 as f64, input[j + h] as i32 as f64), self.twist[j]))
            .collect();
        self.cyclic(&mut z, false);
        let mut out = [0.0; N];
        for j in 0..h {
            out[j] = 2.0 * z[j].0;
            out[j + h] = 2.0 * z[j].1;
        }
        out
    }

    fn fft<const N: usize>(&mut self, input: &[f64; N]) -> [Torus; N] {
        let h = N / 2;
        let mut z: Vec<Complex> = (0..h).map(|j| (input[j], input[j + h])).collect();
        self.cyclic(&mut z, true);
        let mut out = [0; N];
        for j in 0..h {
            let (c, s) = self.twist[j];
            let (re, im) = times(z[j], (c, -s));
            out[j] = (re / N as f64).round() as i64 as u32;
            out[j + h] = (im / N as f64).round() as i64 as u32;
        }
        out
    }

    fn poly_mul<const N: usize>(&mut self, a: &[Torus; N], b: &[Torus; N]) -> [Torus; N] {
        let mut out = [0u32; N];
        for (i, &x) in a.iter().enumerate() {
            let (low, high) = b.split_at(N - i);
            for (o, &y) in out[i..].iter_mut().zip(low) {
                *o = o.wrapping_add(x.wrapping_mul(y));
            }
            for (o, &y) in out[..i].iter_mut().zip(high) {
                *o = o.wrapping_sub(x.wrapping_mul(y));
            }
        }
        out
    }
}
