//! Problems and right sides that several tests share.
#![allow(dead_code)] // each test has a few of them

use raimsklo::{Options, Problem};

pub fn problem<'a>(xend: f64, y0: &'a [f64], rtol: &'a [f64], atol: &'a [f64]) -> Problem<'a> {
    Problem { x0: 0.0, xend, y0, rtol, atol, options: Options::default() }
}

/// The oscillator, from its highest point.
pub fn swinging(xend: f64) -> Problem<'static> {
    problem(xend, &[1.0, 0.0], &[1e-6], &[1e-9])
}

/// The same, ended by max_steps long before.
pub fn cut_after(max_steps: usize) -> Problem<'static> {
    let mut problem = problem(10.0, &[1.0, 0.0], &[1e-3], &[1e-6]);
    problem.options.max_steps = max_steps;
    problem
}

pub fn swing(_: f64, y: &[f64], f: &mut [f64]) {
    f[0] = y[1];
    f[1] = -y[0];
}

/// It rises at rate 1, and is NaN from time 0.5 on.
pub fn breaking(time: f64, _: &[f64], f: &mut [f64]) {
    f[0] = if time > 0.5 { f64::NAN } else { 1.0 };
}

pub fn robertson(_: f64, y: &[f64], f: &mut [f64]) {
    f[0] = -0.04 * y[0] + 1e4 * y[1] * y[2];
    f[2] = 3e7 * y[1] * y[1];
    f[1] = -f[0] - f[2];
}

/// Column by column; the zero entries are not written.
pub fn robertson_jacobian(_: f64, y: &[f64], columns: &mut [f64]) {
    let (b, c) = (y[1], y[2]);
    columns[..2].copy_from_slice(&[-0.04, 0.04]);
    columns[3..6].copy_from_slice(&[1e4 * c, -1e4 * c - 6e7 * b, 6e7 * b]);
    columns[6..8].copy_from_slice(&[1e4 * b, -1e4 * b]);
}
