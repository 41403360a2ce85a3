//! The published solver, as oracle/reference builds it, but with its own `powf`.

pub mod root {
    pub trait PowerByRoot {
        fn power_by_root(self, exponent: f64) -> f64;
    }

    impl PowerByRoot for f64 {
        #[inline(always)]
        fn power_by_root(self, exponent: f64) -> f64 {
            self.powf(exponent)
        }
    }
}

#[path = "../../../oracle/reference/src/stand_ins.rs"]
mod stand_ins;

pub(crate) type Float = f64;

include!(concat!(env!("OUT_DIR"), "/published.rs"));
