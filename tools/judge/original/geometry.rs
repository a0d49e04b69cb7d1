//! The root of the geometry crate, whose own is not in docs/src: its four files, and the stand-ins
//! that line.rs is given for the angle and camera.rs for the arctangent.
mod arctan;
mod camera;
mod direction;
mod homography;
mod line;
mod sampling;

pub use arctan::arctan;
pub use camera::*;
pub use homography::numbers::{numbers, of_numbers};
pub use homography::*;
pub use line::*;
pub use sampling::*;

/// How many square roots the stand-in took: only the watched build counts.
pub use direction::ROOTS;
