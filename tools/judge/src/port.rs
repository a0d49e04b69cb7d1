//! The port, through the crate that other programs use. `None` where there is no port to call.
use crate::job::{Camera, Job, Lens};
use crate::oracle::Outcome;
use trufolmesca::raw::{self, Written};
use trufolmesca::{Line, Map, Settings};

pub use trufolmesca::{Aim, Border, Photograph};

/// The refinement of a job through these bindings, where this archive is linked. Each archive's
/// bindings have types of their own, so the text is a macro's.
macro_rules! refinement {
    ($bindings:ident, $archive:ident) => {
        fn intrinsics([fx, fy, cx, cy]: [f64; 4]) -> $bindings::Intrinsics {
            $bindings::Intrinsics { fx, fy, cx, cy }
        }

        fn camera(c: &Camera) -> $bindings::Camera {
            let lens = match c.lens {
                Lens::None => None,
                Lens::BrownConrady([k1, k2, p1, p2, k3]) => Some($bindings::Lens::BrownConrady { k1, k2, p1, p2, k3 }),
                Lens::Fisheye([k1, k2, k3, k4]) => Some($bindings::Lens::Fisheye { k1, k2, k3, k4 }),
            };
            $bindings::Camera { source: intrinsics(c.source), rectified: intrinsics(c.rectified), lens }
        }

        fn request(job: &Job) -> $bindings::Request<'_> {
            let photograph = $bindings::Photograph { bytes: &job.bytes, width: job.width, height: job.height, stride: job.stride };
            let mut request = $bindings::Request::new(photograph, $bindings::Grid::new(&job.modules, job.dim), job.corners);
            request.scale = [job.sx, job.sy];
            request.inverted = job.inverted;
            request.camera = job.camera.as_ref().map(camera);
            request
        }

        fn answered(job: &Job) -> $bindings::raw::Written<$bindings::Answer> {
            $bindings::raw::refine_corners(&request(job))
        }

        fn answered_marking(job: &Job, sheet: &mut [u8], copy: &mut [u8]) -> $bindings::raw::Written<$bindings::Answer> {
            $bindings::raw::refine_corners_marking(&request(job), sheet, copy)
        }

        fn outcome(w: &$bindings::raw::Written<$bindings::Answer>) -> Outcome {
            let a = &w.values;
            Outcome {
                number: w.number,
                corners: a.corners,
                counts: a.edges.map(|e| [e.probed, e.fit, e.dropped]),
                valid: a.edges.map(|e| e.valid),
                refined: a.refined,
            }
        }

        /// The refinement call, with or without a camera.
        pub fn refine(job: &Job) -> Option<Outcome> {
            cfg!($archive).then(|| outcome(&answered(job)))
        }

        /// The marking call, which is lent sheet and copy.
        pub fn refine_marking(job: &Job, sheet: &mut [u8], copy: &mut [u8]) -> Option<Outcome> {
            cfg!($archive).then(|| outcome(&answered_marking(job, sheet, copy)))
        }

        /// The bare call, for timing.
        #[inline(never)]
        pub fn timed(job: &Job) -> Option<u32> {
            cfg!($archive).then(|| std::hint::black_box(answered(job)).number)
        }

        /// The bare marking call, for timing.
        #[inline(never)]
        pub fn timed_marking(job: &Job, sheet: &mut [u8], copy: &mut [u8]) -> Option<u32> {
            cfg!($archive).then(|| std::hint::black_box(answered_marking(job, sheet, copy)).number)
        }
    };
}

refinement!(trufolmesca, port);

/// The port as it was before, from an archive of its own.
pub mod before {
    use super::{Camera, Job, Lens, Outcome};

    refinement!(trufolmesca_before, before);
}

/// The settings of a list as the bindings' own, where they can hold it: nine numbers, and whole ones where they must be.
fn settings_of(list: &[f64]) -> Option<Settings> {
    let [a, b, margin, limit, least, floor, c, d, rounds] = *list else {
        return None;
    };
    let whole = |x: f64| (f64::from(x as u32).to_bits() == x.to_bits()).then_some(x as u32);
    Some(Settings {
        probe_fraction_first: a,
        probe_fraction_second: b,
        edge_margin_modules: margin,
        max_points_per_edge: whole(limit)?,
        min_edge_points: whole(least)?,
        contrast_floor: whole(floor)?,
        outlier_floor_modules: c,
        outlier_median_multiplier: d,
        rounds: whole(rounds)?,
    })
}

/// Whether these are the bindings' own defaults.
pub fn are_defaults(list: &[f64]) -> bool {
    settings_of(list) == Some(Settings::default())
}

/// The refinement call of a job, under its settings where it has some.
pub fn call(job: &Job) -> Option<Outcome> {
    match &job.settings {
        None => refine(job),
        Some(list) => cfg!(port).then(|| outcome(&raw::refine_corners_with(&request(job), list))),
    }
}

/// The marking call of a job, under its settings where it has some, and then from a request that holds them if it can.
pub fn call_marking(job: &Job, sheet: &mut [u8], copy: &mut [u8]) -> Option<Outcome> {
    let Some(list) = &job.settings else {
        return refine_marking(job, sheet, copy);
    };
    let written = |sheet, copy| match settings_of(list) {
        Some(settings) => raw::refine_corners_marking(&request(job).with_settings(settings), sheet, copy),
        None => raw::refine_corners_marking_with(&request(job), list, sheet, copy),
    };
    cfg!(port).then(|| outcome(&written(sheet, copy)))
}

/// A leaf call's number and values.
pub type Leaf<const N: usize> = Option<(u32, [f64; N])>;

/// A call that can be refused, where the port is linked.
fn leaf<const N: usize>(call: impl FnOnce() -> Written<[f64; N]>) -> Leaf<N> {
    cfg!(port).then(call).map(|w| (w.number, w.values))
}

fn line([x, y, dx, dy]: [f64; 4]) -> Line {
    Line { centroid: [x, y], direction: [dx, dy] }
}

pub fn sample_bilinear(p: Photograph, x: f64, y: f64, border: Border) -> Leaf<1> {
    leaf(|| raw::sample_bilinear(&p, [x, y], border))
}

pub fn rectified_to_source(c: &Camera, x: f64, y: f64) -> Leaf<2> {
    leaf(|| raw::rectified_to_source(&camera(c), [x, y]))
}

pub fn square_to_quad(q: &[[f64; 2]; 4]) -> Leaf<9> {
    leaf(|| raw::square_to_quad(q))
}

pub fn quad_to_quad(a: &[[f64; 2]; 4], b: &[[f64; 2]; 4]) -> Leaf<9> {
    leaf(|| raw::quad_to_quad(a, b))
}

pub fn map(m: &[f64; 9], u: f64, v: f64) -> Leaf<2> {
    cfg!(port).then(|| (0, Map(*m).map([u, v])))
}

pub fn scaled(sx: f64, sy: f64) -> Leaf<9> {
    cfg!(port).then(|| (0, Map::scaled(sx, sy).0))
}

pub fn inverse(m: &[f64; 9]) -> Leaf<9> {
    cfg!(port).then(|| (0, Map(*m).inverse().0))
}

pub fn then(inner: &[f64; 9], outer: &[f64; 9]) -> Leaf<9> {
    cfg!(port).then(|| (0, Map(*inner).then(&Map(*outer)).0))
}

pub fn fit_line(xs: &[f64], ys: &[f64], ws: &[f64]) -> Leaf<4> {
    leaf(|| raw::fit_line_tls_weighted(xs, ys, ws))
}

#[cfg(fit)]
extern "C" {
    fn judge_fit_edge(
        xs: *const f64, xs_len: usize, ys: *const f64, ys_len: usize, weights: *const f64, weights_len: usize,
        probed: u32, module_px: f64, line: *mut f64, line_len: usize, counts: *mut u32, counts_len: usize,
    ) -> u32;
}

/// The fit of an edge: its line, then probed, fit, dropped and valid.
#[cfg(fit)]
pub fn fit_edge(xs: &[f64], ys: &[f64], ws: &[f64], probed: u32, module_px: f64) -> Leaf<8> {
    let (mut line, mut counts) = ([f64::NAN; 4], [u32::MAX; 4]);
    // SAFETY: each pointer has the length of its own array or slice beside it, and the buffers are this function's.
    let number = unsafe {
        judge_fit_edge(
            xs.as_ptr(), xs.len(), ys.as_ptr(), ys.len(), ws.as_ptr(), ws.len(),
            probed, module_px, line.as_mut_ptr(), 4, counts.as_mut_ptr(), 4,
        )
    };
    let value = |i: usize| if i < 4 { line[i] } else { f64::from(counts[i - 4]) };
    Some((number, std::array::from_fn(value)))
}

#[cfg(not(fit))]
pub fn fit_edge(_: &[f64], _: &[f64], _: &[f64], _: u32, _: f64) -> Leaf<8> {
    None
}

pub fn intersect_lines(a: &[f64; 4], b: &[f64; 4]) -> Leaf<2> {
    leaf(|| raw::intersect_lines(&line(*a), &line(*b)))
}

pub fn localize(p: Photograph, c: Option<&Camera>, a: &Aim) -> Leaf<3> {
    leaf(|| raw::localize_edge_point(&p, c.map(camera).as_ref(), a))
}

pub fn localize_with(p: Photograph, c: Option<&Camera>, a: &Aim, settings: &[f64]) -> Leaf<3> {
    leaf(|| raw::localize_edge_point_with(&p, c.map(camera).as_ref(), a, settings))
}

pub fn sqrt(x: f64) -> Leaf<1> {
    cfg!(port).then(|| (0, [trufolmesca::sqrt(x)]))
}

pub fn smooth_to(scan: &[u16], window: u32, out: &mut [u16]) -> Option<u32> {
    cfg!(port).then(|| raw::smooth_to(scan, window, out))
}

pub fn smooth_over(scan: &mut [u16], window: u32) -> Option<u32> {
    cfg!(port).then(|| raw::smooth_over(scan, window))
}

pub fn run_card(card: &[u8], out: &mut [u8]) -> Option<u32> {
    cfg!(port).then(|| raw::run_card(card, out))
}

pub fn widen_result_card(card: &[u8], out: &mut [u8]) -> Option<u32> {
    cfg!(port).then(|| raw::widen_result_card(card, out))
}

pub fn narrow_result_card(card: &[u8], out: &mut [u8]) -> Option<u32> {
    cfg!(port).then(|| raw::narrow_result_card(card, out))
}
