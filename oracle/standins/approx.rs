//! Stand-in for approx's `relative_ne!` on 3-vectors of doubles.

/// Near in the sense of approx 0.5: equal, or apart by at most `epsilon`, or by at most one rounding step
/// of the larger of the two.
pub fn near(a: f64, b: f64, epsilon: f64) -> bool {
    let apart = (a - b).abs();
    a == b
        || (a.is_finite()
            && b.is_finite()
            && (apart <= epsilon || apart <= f64::EPSILON * a.abs().max(b.abs())))
}

#[macro_export]
macro_rules! relative_ne {
    ($left:expr, $right:expr, epsilon = $epsilon:expr) => {{
        let (left, right) = ($left, $right);
        (0..3).any(|i| !$crate::near(left[i], right[i], $epsilon))
    }};
}
