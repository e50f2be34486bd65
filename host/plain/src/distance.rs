//! Distances and the order numbers by which they are compared.

pub const MANHATTAN: u16 = 1;
pub const DOT_PRODUCT: u16 = 2;
pub const EUCLIDEAN: u16 = 3;

/// The distance under metric 1, 2 or 3. No table that passes and has an id built has another.
pub fn distance(metric: u16, a: &[f32], b: &[f32]) -> f32 {
    cut(match metric {
        MANHATTAN => sum(a, b, |x, y| cleared(x - y)),
        DOT_PRODUCT => -sum(a, b, |x, y| x * y),
        EUCLIDEAN => sum(a, b, |x, y| (x - y) * (x - y)),
        _ => unreachable!("no distance is asked for under metric {metric}"),
    })
}

/// In index order, from +0.0, each operation rounded once.
fn sum(a: &[f32], b: &[f32], term: impl Fn(f32, f32) -> f32) -> f32 {
    let mut sum = 0.0;
    for (x, y) in a.iter().zip(b) {
        sum += term(*x, *y);
    }
    sum
}

fn cleared(x: f32) -> f32 {
    f32::from_bits(x.to_bits() & 0x7FFF_FFFF)
}

/// A NaN or positive infinity becomes the largest finite f32, negative infinity its negative.
fn cut(x: f32) -> f32 {
    if x.is_nan() || x == f32::INFINITY {
        f32::MAX
    } else if x == f32::NEG_INFINITY {
        -f32::MAX
    } else {
        x
    }
}

/// The low 31 bits of the float, negated if the sign bit is set.
pub fn order(x: f32) -> i32 {
    let low = (x.to_bits() & 0x7FFF_FFFF) as i32;
    if x.to_bits() >> 31 == 1 {
        -low
    } else {
        low
    }
}

#[cfg(test)]
mod tests {
    use super::*;

    /// 01's starred order numbers.
    #[test]
    fn order_numbers() {
        let of = |bits| order(f32::from_bits(bits));
        assert_eq!(of(0x8000_0000), 0);
        assert_eq!(of(0x0000_0000), 0);
        assert_eq!(of(0x3F80_0000), 1065353216);
        assert_eq!(of(0xBF80_0000), -1065353216);
        assert_eq!(of(0x7F7F_FFFF), 2139095039);
    }

    /// 01's starred distances of (1,2) and (4,-2).
    #[test]
    fn distances() {
        let bits = |metric| distance(metric, &[1.0, 2.0], &[4.0, -2.0]).to_bits();
        assert_eq!(bits(EUCLIDEAN), 25f32.to_bits());
        assert_eq!(bits(MANHATTAN), 7f32.to_bits());
        assert_eq!(bits(DOT_PRODUCT), 0x8000_0000);
    }

    #[test]
    fn cuts() {
        let big = [f32::MAX, f32::MAX];
        let low = [-f32::MAX, f32::MAX];
        assert_eq!(distance(EUCLIDEAN, &big, &low), f32::MAX);
        assert_eq!(distance(MANHATTAN, &big, &low), f32::MAX);
        // The sum is positive infinity, negated at the end.
        assert_eq!(distance(DOT_PRODUCT, &big, &big), -f32::MAX);
        // Minus infinity and infinity make a NaN.
        assert_eq!(distance(DOT_PRODUCT, &big, &low), f32::MAX);
        let one_sided = distance(DOT_PRODUCT, &[f32::MAX], &[-f32::MAX]);
        assert_eq!(one_sided, f32::MAX);
    }

    /// Summed in index order: 2^24 takes in no 1, but two of them before it.
    #[test]
    fn index_order() {
        let ones = [1.0, 1.0, 1.0];
        let big = (1 << 24) as f32;
        assert_eq!(distance(DOT_PRODUCT, &[big, 1.0, 1.0], &ones), -big);
        assert_eq!(distance(DOT_PRODUCT, &[1.0, 1.0, big], &ones), -big - 2.0);
    }
}
