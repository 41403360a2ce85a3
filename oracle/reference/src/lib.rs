//! The published solver, as build.rs writes it, with small stand-ins for what is not published.

pub mod root;
mod stand_ins;

pub(crate) type Float = f64;

include!(concat!(env!("OUT_DIR"), "/published.rs"));

/// The solver's private functions and records.
pub use methods::lsoda::reach;
