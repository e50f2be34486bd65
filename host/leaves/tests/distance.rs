//! Order numbers and distances against Rust's own comparison and the oracle's kernel.

use leaves::{distance, order};
use oracle::core::metrics::metric;
use oracle::Metric;
use scenarios::random::Random;

#[test]
fn the_starred_order_numbers() {
    let of = |bits| order(f32::from_bits(bits));
    assert_eq!(of(0x8000_0000), 0);
    assert_eq!(of(0x0000_0000), 0);
    assert_eq!(of(0x3F80_0000), 1_065_353_216);
    assert_eq!(of(0xBF80_0000), -1_065_353_216);
    assert_eq!(of(0x7F7F_FFFF), 2_139_095_039);
    assert_eq!(of(0xFF7F_FFFF), -2_139_095_039);
    assert_eq!(order(f32::NAN), 0);
}

/// Any bits; near ones too, so that the last digits count.
fn pair(random: &mut Random) -> (f32, f32) {
    let bits = random.draw() as u32;
    let near = match random.below(3) {
        0 => random.draw() as u32,
        1 => bits.wrapping_add(random.below(3) as u32).wrapping_sub(1),
        _ => bits ^ 0x8000_0000,
    };
    (f32::from_bits(bits), f32::from_bits(near))
}

#[test]
fn order_numbers_compare_as_floats() {
    let mut random = Random::new(1);
    let mut compared = 0;
    for _ in 0..1_000_000 {
        let (a, b) = pair(&mut random);
        if a.is_nan() || b.is_nan() {
            continue;
        }
        assert_eq!(order(a).partial_cmp(&order(b)), a.partial_cmp(&b));
        assert_eq!(order(-a), -order(a));
        compared += 1;
    }
    assert!(compared > 900_000);
}

#[test]
fn the_starred_distances() {
    let bits = |number| distance(number, &[1.0, 2.0], &[4.0, -2.0]).to_bits();
    assert_eq!(bits(3), 25f32.to_bits());
    assert_eq!(bits(1), 7f32.to_bits());
    assert_eq!(bits(2), 0x8000_0000);
}

#[test]
fn distances_equal_the_oracles_kernel() {
    let metrics = [
        (1, Metric::Manhattan),
        (2, Metric::DotProduct),
        (3, Metric::Euclidean),
    ];
    let mut random = Random::new(2);
    for round in 0..60_000u64 {
        let dimension = random.below(70);
        let mut vector = || -> Vec<f32> {
            (0..dimension)
                .map(|_| match round % 3 {
                    0 => f32::from_bits(random.draw() as u32),
                    1 => random.below(511) as f32 - 255.0,
                    _ => f32::from_bits(0x7F00_0000 + (random.draw() as u32 & 0x80FF_FFFF)),
                })
                .collect()
        };
        let (a, b) = (vector(), vector());
        for (number, name) in metrics {
            let ours = distance(number, &a, &b);
            assert!(ours.is_finite());
            assert_eq!(ours.to_bits(), metric(&a, &b, name).unwrap().to_bits());
        }
    }
}

#[test]
fn what_has_no_distance() {
    for number in [0, 4, 5, 6, 65_535] {
        assert_eq!(distance(number, &[1.0], &[1.0]), f32::MAX);
    }
    assert_eq!(distance(3, &[1.0], &[1.0, 1.0]), f32::MAX);
}
