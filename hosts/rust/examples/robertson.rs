//! Robertson's problem of chemical kinetics to 4e4, with its Jacobian and a tolerance for each state; as many digits
//! as the error allows.
//!
//!     cargo run --release --example robertson

use raimsklo::{Control, Error, Options, Problem, RightSide};

fn main() -> Result<(), Error> {
    let options = Options::default();
    let problem =
        Problem { x0: 0.0, xend: 4e4, y0: &[1.0, 0.0, 0.0], rtol: &[1e-6], atol: &[1e-8, 1e-12, 1e-8], options };
    let kinetics = RightSide::new(|_, y, f| {
        f[0] = -0.04 * y[0] + 1e4 * y[1] * y[2];
        f[2] = 3e7 * y[1] * y[1];
        f[1] = -f[0] - f[2];
    })
    .jacobian(|_, y, columns| {
        // column by column: the derivatives by y[0], by y[1], by y[2]
        let (b, c) = (y[1], y[2]);
        columns[..3].copy_from_slice(&[-0.04, 0.04, 0.0]);
        columns[3..6].copy_from_slice(&[1e4 * c, -1e4 * c - 6e7 * b, 6e7 * b]);
        columns[6..].copy_from_slice(&[1e4 * b, -1e4 * b, 0.0]);
    });

    println!("     time          a          b          c   sum - 1");
    let mut wanted: f64 = 0.4;
    let finished = problem.solve(kinetics, |step| {
        while wanted <= step.time * (1.0 + 1e-12) {
            let y = step.at(wanted.min(step.time)).expect("a time of this step");
            let beyond = y.iter().sum::<f64>() - 1.0;
            println!("{wanted:9.1e} {:10.3e} {:10.3e} {:10.3e} {beyond:9.1e}", y[0], y[1], y[2]);
            wanted *= 10.0;
        }
        Control::Continue
    })?;
    println!("{finished}: {} steps, {} Jacobians, {} derivatives", finished.accepted, finished.nje, finished.nfe);
    assert!(wanted > 4e4);
    Ok(())
}
