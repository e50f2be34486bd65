// From hora-search/hora 239bd36669, licence Apache-2.0 (see NOTICE and docs/ORACLE.md).
// Changed only where a comment says CHANGED, LEFT OUT, ADDED or PLANTED.
use crate::core::calc::same_dimension;
// LEFT OUT: `use packed_simd` and, below, the branches under the feature "simd": no crates.

pub trait SIMDOptmized<T = Self> {
    fn dot_product(a: &[T], b: &[T]) -> Result<T, &'static str>;
    fn manhattan_distance(a: &[T], b: &[T]) -> Result<T, &'static str>;
    fn euclidean_distance(a: &[T], b: &[T]) -> Result<T, &'static str>;
}

macro_rules! simd_optimized_impl {
    // CHANGED: `$simd_type`, `$size` and `$simd_size` served the branches left out.
    (  $type_id:ident) => {
        impl SIMDOptmized for $type_id {
            fn dot_product(a: &[$type_id], b: &[$type_id]) -> Result<$type_id, &'static str> {
                assert_eq!(a.len(), b.len());

                // LEFT OUT: the branch of the feature "simd": it needs packed_simd.
                {
                    Ok(-(a.iter().zip(b).map(|(p, q)| p * q).sum::<$type_id>()))
                }
            }

            fn manhattan_distance(
                a: &[$type_id],
                b: &[$type_id],
            ) -> Result<$type_id, &'static str> {
                assert_eq!(a.len(), b.len());

                // LEFT OUT: the branch of the feature "simd": it needs packed_simd.
                {
                    Ok(a.iter()
                        .zip(b)
                        .map(|(p, q)| (p - q).abs())
                        .sum::<$type_id>())
                }
            }

            fn euclidean_distance(
                a: &[$type_id],
                b: &[$type_id],
            ) -> Result<$type_id, &'static str> {
                same_dimension(a, b)?;

                // LEFT OUT: the branch of the feature "simd": it needs packed_simd.
                {
                    Ok(a.iter()
                        .zip(b)
                        .map(|(p, q)| (p - q).powi(2))
                        .sum::<$type_id>())
                }
            }
        }
    };
}

// CHANGED: without the arguments of the branches left out.
simd_optimized_impl!(f32);
// LEFT OUT: f64: the port has f32 alone.
