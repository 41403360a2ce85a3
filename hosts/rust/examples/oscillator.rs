//! The harmonic oscillator, y'' = -y: poses at even times, each interpolated within the accepted step that covers it.
//!
//!     cargo run --release --example oscillator

use raimsklo::{solve, Control, Error, Options, Problem};

fn main() -> Result<(), Error> {
    let options = Options::default();
    let problem = Problem { x0: 0.0, xend: 10.0, y0: &[1.0, 0.0], rtol: &[1e-8], atol: &[1e-10], options };
    let derivative = |_: f64, y: &[f64], f: &mut [f64]| f.copy_from_slice(&[y[1], -y[0]]);

    println!("time        y  difference from the cosine");
    let mut frame = 1;
    let finished = solve(&problem, derivative, |step| {
        while f64::from(frame) <= step.time {
            let t = f64::from(frame);
            let y = step.at(t).expect("a time of this step")[0];
            println!("{t:4} {y:8.5}  {:9.1e}", y - t.cos());
            frame += 1;
        }
        Control::Continue
    })?;
    println!("{finished}: {} steps, {} derivatives", finished.accepted, finished.nfe);
    assert_eq!(frame, 11);
    Ok(())
}
