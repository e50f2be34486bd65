//! Two contenders in turns: each round times one and then the other, and the median of the rounds' ratios counts.

use std::time::Instant;

/// The median times of both, in nanoseconds per unit, and the median of the ratios (ours to theirs).
pub struct Measured {
    pub ours: f64,
    pub theirs: f64,
    pub ratio: f64,
}

fn median(mut numbers: Vec<f64>) -> f64 {
    numbers.sort_by(f64::total_cmp);
    numbers[numbers.len() / 2]
}

fn timed(run: &mut dyn FnMut() -> u64, units: usize) -> (f64, u64) {
    let begun = Instant::now();
    let sum = run();
    (begun.elapsed().as_nanos() as f64 / units as f64, sum)
}

/// Both answer a checksum of what they did; they must agree in every round.
pub fn compare(
    rounds: usize,
    units: usize,
    ours: &mut dyn FnMut() -> u64,
    theirs: &mut dyn FnMut() -> u64,
) -> Measured {
    let (mut a, mut b, mut ratios) = (Vec::new(), Vec::new(), Vec::new());
    for round in 0..rounds + 2 {
        let (our_time, our_sum) = timed(ours, units);
        let (their_time, their_sum) = timed(theirs, units);
        assert_eq!(our_sum, their_sum, "the contenders did not do the same");
        // The first two rounds warm both up.
        if round >= 2 {
            a.push(our_time);
            b.push(their_time);
            ratios.push(our_time / their_time);
        }
    }
    Measured {
        ours: median(a),
        theirs: median(b),
        ratio: median(ratios),
    }
}
