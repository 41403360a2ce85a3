//! A tail of twelve links (24 states, stiff springs) swung at its root: poses by frame from the dense output, and the
//! work of the steps beside their cap.
//!
//!     cargo run --release --example tail

use raimsklo::{solve_dense, Error, Options, Problem};

const LINKS: usize = 12;

/// Angles, then speeds.
fn tail(t: f64, y: &[f64], f: &mut [f64]) {
    let (angle, speed) = y.split_at(LINKS);
    for i in 0..LINKS {
        let above = if i == 0 { 0.6 * f64::sin(2.0 * t) } else { angle[i - 1] };
        let (stiff, mass) = (900.0 * 0.8f64.powi(i as i32), 0.9f64.powi(i as i32));
        let mut pull = stiff * (above - angle[i]);
        if i + 1 < LINKS {
            pull -= 0.8 * stiff * (angle[i] - angle[i + 1]);
        }
        f[i] = speed[i];
        f[LINKS + i] = (pull - 6.0 * speed[i]) / mass - 9.81 * angle[i].sin();
    }
}

fn main() -> Result<(), Error> {
    let options = Options::default();
    let problem = Problem { x0: 0.0, xend: 2.0, y0: &[0.0; 2 * LINKS], rtol: &[1e-6], atol: &[1e-9], options };
    let (finished, curve) = solve_dense(&problem, tail)?;

    println!("frame   root  middle     tip");
    for frame in (0..=48).step_by(4) {
        let pose = curve.at(f64::from(frame) / 24.0).expect("a time of the run");
        println!("{frame:5} {:6.3} {:7.3} {:7.3}", pose[0], pose[LINKS / 2], pose[LINKS - 1]);
    }
    let (most, cap) = (curve.steps().iter().map(|step| step.count).max().unwrap(), problem.options.cap(2 * LINKS));
    println!("{finished}: {} steps; at most {most} derivatives in a step, cap {cap}", finished.accepted);
    assert!(most <= cap);
    Ok(())
}
