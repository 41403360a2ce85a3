//! Van der Pol's equation, stiffness 1000: the accepted steps as an iterator, with those around a jump.
//!
//!     cargo run --release --example van_der_pol

use raimsklo::{steps, Error, Options, Problem};

fn main() -> Result<(), Error> {
    let options = Options::default();
    let problem = Problem { x0: 0.0, xend: 2000.0, y0: &[2.0, 0.0], rtol: &[1e-6], atol: &[1e-9], options };
    let cap = problem.options.cap(2);
    let mut run = steps(&problem, |_, y, f| {
        f[0] = y[1];
        f[1] = 1000.0 * (1.0 - y[0] * y[0]) * y[1] - y[0];
    })?;

    println!("     time         y   step size");
    let (mut side, mut most) = (1.0, 0);
    for step in &mut run {
        let step = step?;
        most = most.max(step.count);
        if step.y[0] * side < 0.0 {
            side = -side;
            println!("{:9.4} {:9.5} {:11.2e}", step.time, step.y[0], step.time - step.previous);
        }
    }
    let finished = run.finished().expect("all steps were taken");
    println!("{finished}: {} steps, {} Jacobians", finished.accepted, finished.nje);
    println!("at most {most} derivatives in a step, cap {cap}");
    assert_eq!(side, 1.0);
    assert!(finished.nje > 0 && most <= cap);
    Ok(())
}
