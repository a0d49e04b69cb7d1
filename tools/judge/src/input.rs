//! A job in the Rust's own types, which each build of the original has for itself: so the text is a macro's.
use crate::job::{Camera, Job, Lens};

macro_rules! input {
    ($build:ident) => {
        pub mod $build {
            use super::*;
            use ::$build::refine::access::geometry::{CameraCalibration, CameraIntrinsics, LensDistortion};
            use ::$build::refine::access::image::{LumaView, Size};
            use ::$build::refine::access::{self, BitMatrix, Input};

            pub fn calibration(c: &Camera, width: u32, height: u32) -> Option<CameraCalibration> {
                let intrinsics = |n: [f64; 4]| CameraIntrinsics { fx: n[0], fy: n[1], cx: n[2], cy: n[3] };
                let lens = match c.lens {
                    Lens::None => LensDistortion::None,
                    Lens::BrownConrady(k) => LensDistortion::BrownConrady(k),
                    Lens::Fisheye(k) => LensDistortion::Fisheye(k),
                };
                let size = Size::new(width as usize, height as usize);
                CameraCalibration::new(size, intrinsics(c.source), lens).ok()?.with_rectified_intrinsics(intrinsics(c.rectified)).ok()
            }

            /// A job that passes the entry checks, with what is made of it before a clock starts.
            pub struct Prepared<'a> {
                job: &'a Job,
                camera: Option<CameraCalibration>,
                bits: BitMatrix,
            }

            impl<'a> Prepared<'a> {
                pub fn new(job: &'a Job) -> Self {
                    let camera = job.camera.as_ref().map(|c| {
                        calibration(c, job.width, job.height).expect("the entry checks say that the Rust takes this camera")
                    });
                    Prepared { job, camera, bits: access::grid(job.dim as usize, &job.modules) }
                }

                pub fn input(&self) -> Input<'_> {
                    let job = self.job;
                    let view = LumaView::new(&job.bytes, job.width as usize, job.height as usize, job.stride as usize);
                    Input {
                        view: view.expect("the entry checks say that the Rust takes this photograph"),
                        camera: self.camera.as_ref(),
                        sx: job.sx,
                        sy: job.sy,
                        corners: job.corners,
                        bits: &self.bits,
                        inverted: job.inverted,
                    }
                }
            }
        }
    };
}

input!(plain);
input!(watched);
input!(marked);
