//! A hanging hand whose joint may be pulled out: the derivative fails with the studio's own error, which comes back as
//! it was, and the curve of the steps before is kept.
//!
//!     cargo run --release --example rig

use std::fmt;

use raimsklo::{solve_dense, Error, Options, Problem};

/// What the rig says when its joint gives way.
#[derive(Debug)]
struct PulledOut {
    force: f64,
}

impl fmt::Display for PulledOut {
    fn fmt(&self, f: &mut fmt::Formatter<'_>) -> fmt::Result {
        write!(f, "the joint was pulled out with {:.2} newtons", self.force)
    }
}

impl std::error::Error for PulledOut {}

/// A hand of 0.3 kg on an arm of 0.5 m, pushed ever harder; the joint holds so many newtons.
struct Hand {
    holds: f64,
}

impl Hand {
    fn swing(&self, time: f64, y: &[f64], f: &mut [f64]) -> Result<(), PulledOut> {
        let (angle, speed) = (y[0], y[1]);
        let force = 0.3 * (9.81 * angle.cos() + 0.5 * speed * speed);
        if force > self.holds {
            return Err(PulledOut { force });
        }
        f[0] = speed;
        f[1] = -9.81 / 0.5 * angle.sin() + 2.0 * time * (6.26 * time).sin();
        Ok(())
    }
}

fn main() -> Result<(), Box<dyn std::error::Error>> {
    let options = Options::default();
    let problem = Problem { x0: 0.0, xend: 6.0, y0: &[0.3, 0.0], rtol: &[1e-6], atol: &[1e-9], options };

    let strong = Hand { holds: 100.0 };
    let (finished, curve) = solve_dense(&problem, |time, y, f| strong.swing(time, y, f))?;
    println!("{finished}: {} steps, poses from {} to {}", finished.accepted, curve.span().0, curve.span().1);

    let weak = Hand { holds: 6.0 };
    let cut = solve_dense(&problem, |time, y, f| weak.swing(time, y, f)).expect_err("the joint gives way");
    let (_, last) = cut.curve.span();
    for frame in (0..).map(|i| f64::from(i) / 4.0).take_while(|time| *time <= last) {
        println!("{frame:5.2} {:7.4}", cut.curve.at(frame).expect("a time of the steps before")[0]);
    }
    let Error::Host(PulledOut { force }) = cut.error else { return Err(cut.into()) };
    assert!(force > weak.holds && last < 6.0);
    println!("{cut}; the last pose is at time {last:.4}");
    Ok(())
}
