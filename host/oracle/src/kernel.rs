//! Ours. The three distances as Gaskkalod works them out, in place of hora's kernels.
//!
//! Coordinates are taken in index order, the sum starts at +0.0 and each operation rounds once.
//! A distance that runs past the finite range is cut back to its end.

/// What `metrics.rs` calls. Both slices have one length: hora's index sees to it.
pub trait Kernel: Sized {
    fn kernel_euclidean(a: &[Self], b: &[Self]) -> Self;
    fn kernel_manhattan(a: &[Self], b: &[Self]) -> Self;
    fn kernel_dot_product(a: &[Self], b: &[Self]) -> Self;
}

impl Kernel for f32 {
    /// The sum of squared differences; no root is taken.
    fn kernel_euclidean(a: &[f32], b: &[f32]) -> f32 {
        let mut sum = 0.0;
        for (p, q) in a.iter().zip(b) {
            let difference = p - q;
            sum += difference * difference;
        }
        cut(sum)
    }

    /// The sum of differences with the sign bit cleared.
    fn kernel_manhattan(a: &[f32], b: &[f32]) -> f32 {
        let mut sum = 0.0;
        for (p, q) in a.iter().zip(b) {
            sum += (p - q).abs();
        }
        cut(sum)
    }

    /// The sum of products, negated once at the end: smaller means closer.
    fn kernel_dot_product(a: &[f32], b: &[f32]) -> f32 {
        let mut sum = 0.0;
        for (p, q) in a.iter().zip(b) {
            sum += p * q;
        }
        cut(-sum)
    }
}

/// NaN and +inf become the largest finite value, -inf its negative.
#[inline]
fn cut(distance: f32) -> f32 {
    if distance.is_nan() || distance == f32::INFINITY {
        f32::MAX
    } else if distance == f32::NEG_INFINITY {
        f32::MIN
    } else {
        distance
    }
}
