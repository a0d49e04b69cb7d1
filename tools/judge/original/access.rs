//! A child of refine.rs, so that its private functions can be called as they are.
use super::*;
use crate::refusal::Refusal;
use qr_lab_geometry::CameraCalibration;
use std::cell::Cell;
use std::panic::{catch_unwind, AssertUnwindSafe};

pub use crate::bitmatrix::BitMatrix;
pub use crate::settings;
pub use qr_lab_geometry as geometry;
pub use qr_lab_image as image;

/// What a refinement comes to: document 01's number, and the corners or zeros.
#[derive(Clone, Copy, Debug, Default, PartialEq)]
pub struct Outcome {
    pub number: u32,
    pub corners: [[f64; 2]; 4],
    /// probed, fit, dropped
    pub counts: [[u32; 3]; 4],
    pub valid: [bool; 4],
    pub refined: [bool; 4],
}

/// How a round ended, and, where a line fit ended it, whether that was an edge's second.
#[derive(Clone, Copy, Debug, Default, PartialEq, Eq, PartialOrd, Ord)]
pub struct RoundEnd {
    pub number: u32,
    pub second_fit: bool,
}

fn outcome(r: &RefinedCorners) -> Outcome {
    Outcome {
        number: 0,
        corners: r.corners,
        counts: r.edge_stats.map(|e| [e.points_probed, e.points_fit, e.dropped_outliers]),
        valid: r.edge_stats.map(|e| e.valid),
        refined: r.corner_refined,
    }
}

fn refused(number: u32) -> Outcome {
    Outcome {
        number,
        ..Outcome::default()
    }
}

/// Run, and give the number of a run that unwound with one. Any other panic goes on.
fn numbered<T>(run: impl FnOnce() -> T) -> Result<T, u32> {
    catch_unwind(AssertUnwindSafe(run)).map_err(|payload| match payload.downcast::<Refusal>() {
        Ok(refusal) => refusal.0,
        Err(other) => std::panic::resume_unwind(other),
    })
}

/// Why a round gave `None`: 8 without a map, else 9.
fn none_number(corners: &[[f64; 2]; 4]) -> u32 {
    match PerspectiveTransform::square_to_quad(*corners) {
        None => 8,
        Some(_) => 9,
    }
}

pub fn grid(dim: usize, modules: &[u8]) -> BitMatrix {
    let mut bits = BitMatrix::new(dim);
    for y in 0..dim {
        for x in 0..dim {
            bits.set(x, y, modules[y * dim + x] == 1);
        }
    }
    bits
}

/// What every run is handed.
#[derive(Clone, Copy)]
pub struct Input<'a> {
    pub view: LumaView<'a>,
    pub camera: Option<&'a CameraCalibration>,
    pub sx: f64,
    pub sy: f64,
    pub corners: [[f64; 2]; 4],
    pub bits: &'a BitMatrix,
    pub inverted: bool,
}

impl Input<'_> {
    fn source_corners(&self) -> [[f64; 2]; 4] {
        self.corners.map(|[x, y]| [x / self.sx, y / self.sy])
    }

    fn source_view(&self) -> SourceView<'_> {
        SourceView {
            view: &self.view,
            camera: self.camera,
            sx: self.sx,
            sy: self.sy,
        }
    }

    fn call(&self) -> Option<RefinedCorners> {
        match self.camera {
            None => refine_corners(&self.view, self.sx, self.sy, &self.corners, self.bits, self.inverted),
            Some(_) => self.call_mapped(),
        }
    }

    fn call_mapped(&self) -> Option<RefinedCorners> {
        refine_corners_mapped(self.source_view(), &self.corners, self.bits, self.inverted)
    }

    fn end(&self, run: impl FnOnce() -> Option<RefinedCorners>) -> Outcome {
        match numbered(run) {
            Ok(Some(refined)) => outcome(&refined),
            Ok(None) => refused(none_number(&self.source_corners())),
            Err(number) => refused(number),
        }
    }

    /// `refine_corners`, or with a camera `refine_corners_mapped`.
    pub fn refine(&self) -> Outcome {
        self.end(|| self.call())
    }

    /// `refine_corners_mapped`, also without a camera.
    pub fn refine_mapped(&self) -> Outcome {
        self.end(|| self.call_mapped())
    }

    /// The bare call, for timing.
    #[inline(never)]
    pub fn timed(&self) -> bool {
        self.call().is_some()
    }

    /// The same on a cleared sheet, with the copy made after it.
    #[cfg(marked)]
    #[inline(never)]
    pub fn timed_marking(&self, sheet: &mut [u8], copy: &mut [u8]) -> bool {
        image::mark::marked(&self.view, sheet, copy, || self.call().is_some())
    }

    /// How many samples a run tries, rejected ones included.
    pub fn samples(&self) -> u64 {
        let source = self.source_view();
        let tried = Cell::new(0u64);
        let counted = |x: f64, y: f64| {
            tried.set(tried.get() + 1);
            source.sample(x, y)
        };
        let _ = numbered(|| {
            refine_corners_with_sampler(&counted, self.sx, self.sy, &self.corners, self.bits, self.inverted).is_some()
        });
        tried.get()
    }

    /// How each round ended, and what it gave.
    pub fn rounds(&self) -> Vec<(RoundEnd, Outcome)> {
        let source = self.source_view();
        let mut start = self.source_corners();
        let mut ends = Vec::new();
        for _ in 0..settings::of_run().rounds {
            let run = numbered(|| refine_round(&|x, y| source.sample(x, y), &start, self.bits, self.inverted));
            let given = match run {
                Ok(Some(refined)) => outcome(&refined),
                Ok(None) => refused(none_number(&start)),
                Err(number) => refused(number),
            };
            let stopped = given.number != 0 && given.number != 8 && given.number != 9;
            let end = RoundEnd {
                number: given.number,
                second_fit: stopped && qr_lab_image::watch::SECOND_FIT.with(|f| f.get()),
            };
            ends.push((end, given));
            if given.number != 0 {
                break;
            }
            start = given.corners;
        }
        ends
    }

    /// `localize_edge_point`: the point and its weight.
    pub fn localize(
        &self,
        coarse: [f64; 2],
        normal: [f64; 2],
        step: f64,
        inward_differs: bool,
    ) -> Option<([f64; 2], f64)> {
        let source = self.source_view();
        localize_edge_point(
            &|x, y| source.sample(x, y),
            coarse,
            normal,
            step,
            self.inverted,
            inward_differs,
        )
        .map(|p| (p.pos, p.weight))
    }
}

/// A fit's end as document 01 numbers it.
pub fn fit_line(points: &[[f64; 2]], weights: &[f64]) -> Result<qr_lab_geometry::Line2, u32> {
    crate::refusal::fitted(qr_lab_geometry::fit_line_tls_weighted(points, weights))
}

/// `fit_edge`: the line, or zeros where there is none, then probed, fit, dropped and valid.
pub fn fit_edge(points: &[[f64; 2]], weights: &[f64], probed: usize, module_px: f64) -> Result<[f64; 8], u32> {
    let localized: Vec<EdgePoint> =
        points.iter().zip(weights).map(|(&pos, &weight)| EdgePoint { pos, weight }).collect();
    let (fit, stat) = numbered(|| super::fit_edge(&localized, probed, module_px))?;
    let line = fit.map_or([0.0; 4], |l| [l.centroid[0], l.centroid[1], l.dir[0], l.dir[1]]);
    let counts = [stat.points_probed, stat.points_fit, stat.dropped_outliers, u32::from(stat.valid)];
    let value = |i: usize| if i < 4 { line[i] } else { f64::from(counts[i - 4]) };
    Ok(std::array::from_fn(value))
}

/// Square roots taken so far, those of refine.rs and of the line fit.
pub fn roots() -> u64 {
    qr_lab_image::watch::ROOTS.with(|n| n.get()) + qr_lab_geometry::ROOTS.with(|n| n.get())
}
