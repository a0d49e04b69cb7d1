#![doc = include_str!("../README.md")]
#![deny(missing_docs, unsafe_code, unsafe_op_in_unsafe_fn, clippy::undocumented_unsafe_blocks)]

mod card;
#[allow(unsafe_code)]
pub mod ffi;
mod geometry;
mod numbers;
mod photograph;
pub mod raw;
mod refinement;
mod scan;
mod settings;
#[cfg(doctest)]
mod wrong_uses;

pub use card::{OLDER_RESULT_CARD_SIZE, RESULT_CARD_SIZE, narrow_result_card, run_card, widen_result_card};
pub use geometry::{Line, Map, Place, Quad, fit_line_tls_weighted, intersect_lines, sqrt};
pub use numbers::Refusal;
pub use photograph::{
    Aim, Border, Camera, EdgePoint, Intrinsics, Lens, Photograph, localize_edge_point,
    localize_edge_point_with, rectified_to_source, sample_bilinear,
};
pub use refinement::{Answer, Edge, Grid, Request, refine_corners, refine_corners_marking};
pub use scan::{smooth_over, smooth_to};
pub use settings::Settings;
