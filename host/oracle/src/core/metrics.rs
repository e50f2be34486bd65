// From hora-search/hora 239bd36669, licence Apache-2.0 (see NOTICE and docs/ORACLE.md).
// Changed only where a comment says CHANGED, LEFT OUT, ADDED or PLANTED.
// LEFT OUT: `extern crate num`, `use serde` and the two derives of serde below: no crates.
// CHANGED: `same_dimension` too, for the test that stood in hora's Euclidean kernel.
use crate::core::{calc::dot, calc::same_dimension, node::FloatElement};

// CHANGED: without `Serialize, Deserialize`.
#[derive(Debug, Clone, Copy, Eq, PartialEq)]
pub enum Metric {
    Unknown,
    Manhattan,
    DotProduct,
    Euclidean,
    CosineSimilarity,
    Angular,
}

impl Default for Metric {
    fn default() -> Self {
        Metric::Unknown
    }
}

// TODO: make these func private
pub fn metric<T>(vec1: &[T], vec2: &[T], mt: Metric) -> Result<T, &'static str>
where
    T: FloatElement,
{
    match mt {
        Metric::Euclidean => euclidean_distance(vec1, vec2),
        Metric::Manhattan => manhattan_distance(vec1, vec2),
        Metric::DotProduct => dot_product(vec1, vec2),
        Metric::CosineSimilarity => cosine_similarity(vec1, vec2),
        Metric::Angular => angular_distance(vec1, vec2),
        Metric::Unknown => Result::Err("unknown method"),
    }
}

#[allow(dead_code)]
pub fn range_metric<T>(
    vec1: &[T],
    vec2: &[T],
    mt: Metric,
    begin: usize,
    end: usize,
) -> Result<T, &'static str>
where
    T: FloatElement,
{
    metric(&vec1[begin..end], &vec2[begin..end], mt)
}

fn dot_product<T>(vec1: &[T], vec2: &[T]) -> Result<T, &'static str>
where
    T: FloatElement,
{
    assert_eq!(vec1.len(), vec2.len());
    // smaller means closer.
    // PLANTED: OwnKernel. What follows is hora's line.
    if planted!(OwnKernel) {
        return dot(vec1, vec2).map(|x| -x);
    }
    // CHANGED: our kernel, which negates once and cuts.
    Ok(T::kernel_dot_product(vec1, vec2))
}

fn manhattan_distance<T>(vec1: &[T], vec2: &[T]) -> Result<T, &'static str>
where
    T: FloatElement,
{
    // PLANTED: OwnKernel. What follows is hora's line.
    if planted!(OwnKernel) {
        return T::manhattan_distance(vec1, vec2);
    }
    // CHANGED: our kernel, which cuts; the test of both lengths stands in hora's kernel.
    assert_eq!(vec1.len(), vec2.len());
    Ok(T::kernel_manhattan(vec1, vec2))
}

fn euclidean_distance<T>(vec1: &[T], vec2: &[T]) -> Result<T, &'static str>
where
    T: FloatElement,
{
    // PLANTED: OwnKernel. What follows is hora's line.
    if planted!(OwnKernel) {
        return T::euclidean_distance(vec1, vec2);
    }
    // CHANGED: our kernel, which cuts; the test of both lengths stands in hora's kernel.
    same_dimension(vec1, vec2)?;
    Ok(T::kernel_euclidean(vec1, vec2))
}

fn cosine_similarity<T>(vec1: &[T], vec2: &[T]) -> Result<T, &'static str>
where
    T: FloatElement,
{
    assert_eq!(vec1.len(), vec2.len());
    // smaller means closer.
    Ok(
        -dot(vec1, vec2).unwrap()
            / (dot(vec1, vec1).unwrap().sqrt() * dot(vec2, vec2).unwrap().sqrt()),
    )
}

// (a/|a| - b/|b|)^2
// = a^2 / a^2 + b^2 / b^2 - 2ab/|a||b|
// = 2 - 2cos
fn angular_distance<T>(vec1: &[T], vec2: &[T]) -> Result<T, &'static str>
where
    T: FloatElement,
{
    assert_eq!(vec1.len(), vec2.len());
    let rhd = dot(vec1, vec1).unwrap();
    let lhd = dot(vec2, vec2).unwrap();
    let rldot = dot(vec1, vec2).unwrap();
    let rlmul = rhd * lhd;
    let two = T::float_two();
    if rlmul > T::float_zero() {
        Ok(two - two * rldot / rlmul.sqrt())
    } else {
        Ok(two)
    }
}
