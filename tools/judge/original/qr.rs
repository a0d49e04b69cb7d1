//! The root of the QR crate, whose own is not in docs/src: its four files, and as much of the modules
//! that they name as it takes to compile them. The refinement runs none of the latter.
mod bitmatrix;
mod consts;
pub mod refine;
pub mod refusal;
mod sample;
pub mod settings;

use qr_lab_image::LumaView;

mod homography {
    pub use qr_lab_geometry::PerspectiveTransform;
}

mod alignment {
    pub enum AnchorSlot {
        Found([f64; 2]),
        Missing,
        FinderCorner,
    }

    pub struct AlignmentGrid {
        pub coords: Vec<u8>,
        pub found: Vec<AnchorSlot>,
    }

    pub fn is_finder_corner(_: usize, _: usize, _: usize) -> bool {
        unreachable!("no grid is sampled")
    }
}

mod tiles {
    pub struct TileGrid;

    impl TileGrid {
        pub fn threshold_at(&self, _: usize, _: usize) -> u8 {
            unreachable!("no grid is sampled")
        }
    }
}

mod trace {
    pub struct SampleRegionTrace {
        pub module_rect: [u32; 4],
        pub quad: [[f64; 2]; 4],
    }

    pub struct EdgeRefineTrace {
        pub points_probed: u32,
        pub points_fit: u32,
        pub dropped_outliers: u32,
        pub valid: bool,
    }

    pub struct RefineTrace {
        pub edges: [EdgeRefineTrace; 4],
        pub corner_refined: [bool; 4],
    }
}

mod triplet {
    pub struct TripletCandidate {
        pub tl: [f64; 2],
        pub tr: [f64; 2],
        pub bl: [f64; 2],
        pub inverted: bool,
    }
}

mod version {
    use crate::homography::PerspectiveTransform;
    use crate::tiles::TileGrid;
    use crate::LumaView;

    pub fn sample_module_gray(_: &LumaView, _: &PerspectiveTransform, _: u32, _: f64, _: f64) -> Option<f32> {
        unreachable!("no grid is sampled")
    }

    pub fn sample_module_gray_bilinear(_: &LumaView, _: &PerspectiveTransform, _: u32, _: f64, _: f64) -> Option<f32> {
        unreachable!("no grid is sampled")
    }

    pub fn sample_module_ink(
        _: &LumaView,
        _: &TileGrid,
        _: &PerspectiveTransform,
        _: u32,
        _: f64,
        _: f64,
        _: bool,
    ) -> Option<bool> {
        unreachable!("no grid is sampled")
    }
}
