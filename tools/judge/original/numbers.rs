//! A child of homography.rs: a map's nine numbers are private there.
use super::PerspectiveTransform;

/// a11, a21, a31, a12, a22, a32, a13, a23, a33.
pub fn numbers(m: &PerspectiveTransform) -> [f64; 9] {
    let [[a11, a21, a31], [a12, a22, a32], [a13, a23, a33]] = m.matrix();
    [a11, a21, a31, a12, a22, a32, a13, a23, a33]
}

pub fn of_numbers(n: [f64; 9]) -> PerspectiveTransform {
    PerspectiveTransform::from_matrix([[n[0], n[1], n[2]], [n[3], n[4], n[5]], [n[6], n[7], n[8]]])
}
