//! `powf` as the port defines it: our own root, from the static library.

unsafe extern "C" {
    safe fn raimsklo_root(x: f64, k: usize) -> f64;
}

pub trait PowerByRoot {
    /// `powf` at an exponent that is 1.0 / k, computed in floats, for a k of 2 to 13. Any other exponent is a panic.
    fn power_by_root(self, exponent: f64) -> f64;
}

impl PowerByRoot for f64 {
    fn power_by_root(self, exponent: f64) -> f64 {
        match (2..=13).find(|&k| 1.0 / k as f64 == exponent) {
            Some(k) => raimsklo_root(self, k),
            None => panic!("powf at the exponent {exponent:e}, which is 1.0 / k for no k of 2 to 13"),
        }
    }
}
