//! The session's bytes by the names of their fields, as docs/SESSION.md numbers them.

macro_rules! fields {
    ($($field:ident),* $(,)?) => {
        /// A word of the session. The tolerances follow the last one: 64 slots of rtol, then 64 of atol.
        #[allow(non_camel_case_types)]
        #[derive(Clone, Copy, Debug, PartialEq, Eq)]
        pub enum Field { $($field),* }

        pub const FIELDS: &[Field] = &[$(Field::$field),*];
    };
}

// made by tools/record.py: the fields
fields! {
    phase, n, maxsteps, mxordn, mxords, maxcor, msbp, mxncf, supplied, given, nrtol, natol, meth, nq, lmax, nqnyh,
    ialth, icount, table, nslp, nst, nfe, nje, nlu, rejected, total, count, kflag, ncf, m, column, due, jcur, setup,
    xend, direction, hmin, hmxi, tn, h, hu, told, rc, el0, conit, rmax, pdest, pdlast, pdnorm, convrate, pnorm, rate,
    delp,
}

pub const LENGTH: usize = 1448;
pub const RTOL: usize = 53;
pub const ATOL: usize = 117;
// end of the fields

/// The first word that is a float.
pub const FLOATS: usize = Field::xend as usize;
/// Added to `icount`, so that it needs no sign.
pub const ICOUNT: u64 = 1_000_000;

/// The phases by their numbers.
pub const PHASES: [&str; 11] = [
    "FirstDerivative",
    "FirstReport",
    "FirstModified",
    "Opened",
    "JacobianAsked",
    "DifferenceColumn",
    "FurtherDerivative",
    "Restep",
    "Report",
    "Modified",
    "Finished",
];

#[allow(dead_code)]
pub mod phase {
    pub const FIRST_DERIVATIVE: u64 = 0;
    pub const FIRST_REPORT: u64 = 1;
    pub const FIRST_MODIFIED: u64 = 2;
    pub const OPENED: u64 = 3;
    pub const JACOBIAN_ASKED: u64 = 4;
    pub const DIFFERENCE_COLUMN: u64 = 5;
    pub const FURTHER_DERIVATIVE: u64 = 6;
    pub const RESTEP: u64 = 7;
    pub const REPORT: u64 = 8;
    pub const MODIFIED: u64 = 9;
    pub const FINISHED: u64 = 10;
}

pub fn word(bytes: &[u8], at: usize) -> u64 {
    u64::from_le_bytes(bytes[8 * at..8 * at + 8].try_into().unwrap())
}

pub fn set_word(bytes: &mut [u8], at: usize, word: u64) {
    bytes[8 * at..8 * at + 8].copy_from_slice(&word.to_le_bytes());
}

pub fn count(bytes: &[u8], field: Field) -> u64 {
    word(bytes, field as usize)
}

pub fn float(bytes: &[u8], field: Field) -> f64 {
    f64::from_bits(word(bytes, field as usize))
}

pub fn set_count(bytes: &mut [u8], field: Field, value: u64) {
    set_word(bytes, field as usize, value);
}

pub fn set_float(bytes: &mut [u8], field: Field, value: f64) {
    set_word(bytes, field as usize, value.to_bits());
}

/// Whether this list of fields is that of the page: a field added there must be added here.
pub fn agrees_with_page() -> bool {
    let page = include_str!("../../../docs/SESSION.md");
    FIELDS.iter().all(|field| page.contains(&format!("\n| {} | {field:?} |", *field as usize)))
        && page.contains(&format!("\n| {RTOL} to {} | rtol |", ATOL - 1))
        && page.contains(&format!("\n| {ATOL} to {} | atol |", LENGTH / 8 - 1))
}
