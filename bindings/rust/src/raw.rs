//! The calls with their number and the values that they wrote, as C has them.
//!
//! They are safe, but a refusal is here a number beside zeros, and nobody need look at it. They are
//! for programs that keep number and zeros or hold them against something; others use the functions
//! at the top of the crate, which are these with a `Result`.

// Every call into C is here. Lists and buffers go through `call!`, so that a pointer has the length
// of its own slice beside it and is never null; a buffer is a `&mut` of the function that calls, so
// that it overlaps no other list; and a Rust bool is 0 or 1.
#![allow(unsafe_code)]

use crate::{
    Aim, Answer, Border, Camera, Edge, Lens, Line, Map, Photograph, Place, Quad, Refusal, Request, Settings,
    ffi,
};

/// What a call returned and what it wrote.
#[derive(Clone, Copy, Debug, PartialEq)]
#[must_use]
pub struct Written<T> {
    /// 0 for an answer, or the number of the refusal.
    pub number: u32,
    /// The answer's values; zeros, and `false`, where the call refused.
    pub values: T,
}

impl<T> Written<T> {
    /// The values where the number is 0, else the refusal.
    pub fn answer(self) -> Result<T, Refusal> {
        match Refusal::from_number(self.number) {
            None => Ok(self.values),
            Some(refusal) => Err(refusal),
        }
    }
}

/// Calls C with the parameters that each word and its value stand for: `list` and `buffer` a pointer
/// and its length, `photograph`, `request` and `camera` theirs in the header's order, `value` itself.
macro_rules! call {
    ($name:ident; $($words:tt)*) => { call!($name() $($words)*,) };
    ($name:ident($($made:expr,)*) $(,)?) => { ffi::$name($($made),*) };
    ($name:ident($($made:expr,)*) value $x:expr, $($words:tt)*) => {
        call!($name($($made,)* $x,) $($words)*)
    };
    ($name:ident($($made:expr,)*) list $x:expr, $($words:tt)*) => {
        call!($name($($made,)* $x.as_ptr(), $x.len(),) $($words)*)
    };
    ($name:ident($($made:expr,)*) buffer $x:expr, $($words:tt)*) => {
        call!($name($($made,)* $x.as_mut_ptr(), $x.len(),) $($words)*)
    };
    ($name:ident($($made:expr,)*) photograph $p:expr, $($words:tt)*) => {
        call!($name($($made,)*) list $p.bytes, value $p.width, value $p.height, value $p.stride, $($words)*)
    };
    ($name:ident($($made:expr,)*) request $r:expr, $($words:tt)*) => {
        call!($name($($made,)*) photograph $r.photograph, list $r.grid.modules, value $r.grid.dim,
            value $r.scale[0], value $r.scale[1], list $r.corners.as_flattened(), value $r.inverted, $($words)*)
    };
    ($name:ident($($made:expr,)*) camera $c:expr, $($words:tt)*) => {
        call!($name($($made,)*) list $c.numbers, value $c.lens, $($words)*)
    };
}

/// What a call returned, and what it wrote to a buffer that is lent to it alone.
fn written<const N: usize>(call: impl FnOnce(&mut [f64; N]) -> u32) -> Written<[f64; N]> {
    let mut values = [f64::NAN; N];
    let number = call(&mut values);
    Written { number, values }
}

/// What a call that never refuses wrote to a buffer that is lent to it alone.
fn filled<const N: usize>(call: impl FnOnce(&mut [f64; N])) -> [f64; N] {
    let mut values = [f64::NAN; N];
    call(&mut values);
    values
}

/// What a refinement returned, and the answer that it wrote to buffers lent to it alone.
fn refinement(call: impl FnOnce(&mut [f64; 8], &mut [u32; 20]) -> u32) -> Written<Answer> {
    let (mut places, mut counts) = ([f64::NAN; 8], [u32::MAX; 20]);
    let number = call(&mut places, &mut counts);
    Written { number, values: answer_of(&places, &counts) }
}

/// The answer that places and counts stand for.
fn answer_of(places: &[f64; 8], counts: &[u32; 20]) -> Answer {
    let edge = |e: usize| Edge {
        probed: counts[4 * e],
        fit: counts[4 * e + 1],
        dropped: counts[4 * e + 2],
        valid: counts[4 * e + 3] == 1,
    };
    Answer {
        corners: [0, 1, 2, 3].map(|i| [places[2 * i], places[2 * i + 1]]),
        refined: [0, 1, 2, 3].map(|i| counts[16 + i] == 1),
        edges: [0, 1, 2, 3].map(edge),
    }
}

/// A camera as C takes it: its list, and the kind of its lens.
struct CameraList {
    numbers: [f64; 13],
    lens: u32,
}

impl CameraList {
    /// The list of a camera; what the lens has no coefficient for is 0, and is not read.
    fn of(camera: &Camera) -> Self {
        let Camera { source: s, rectified: r, lens } = camera;
        let (lens, [a, b, c, d, e]) = match *lens {
            None => (0, [0.0; 5]),
            Some(Lens::BrownConrady { k1, k2, p1, p2, k3 }) => (1, [k1, k2, p1, p2, k3]),
            Some(Lens::Fisheye { k1, k2, k3, k4 }) => (2, [k1, k2, k3, k4, 0.0]),
        };
        Self { numbers: [s.fx, s.fy, s.cx, s.cy, r.fx, r.fy, r.cx, r.cy, a, b, c, d, e], lens }
    }
}

/// The camera's list and the kind of its lens, as the calls under settings take them: the list is empty
/// where there is no camera.
fn any_camera(camera: Option<&CameraList>) -> (&[f64], u32) {
    camera.map_or((&[], 0), |camera| (&camera.numbers, camera.lens))
}

/// Settings as C takes them: the list that the calls under settings are lent.
#[must_use]
pub fn settings_list(settings: &Settings) -> [f64; 9] {
    let whole = f64::from;
    [
        settings.probe_fraction_first,
        settings.probe_fraction_second,
        settings.edge_margin_modules,
        whole(settings.max_points_per_edge),
        whole(settings.min_edge_points),
        whole(settings.contrast_floor),
        settings.outlier_floor_modules,
        settings.outlier_median_multiplier,
        whole(settings.rounds),
    ]
}

/// A line as C takes it.
fn line_list(line: &Line) -> [f64; 4] {
    let Line { centroid: [x, y], direction: [dx, dy] } = *line;
    [x, y, dx, dy]
}

/// A label's corners, refined on the photograph or through the request's camera, under its settings.
pub fn refine_corners(request: &Request) -> Written<Answer> {
    if let Some(settings) = &request.settings {
        return refine_corners_with(request, &settings_list(settings));
    }
    refinement(|places, counts| match request.camera.as_ref().map(CameraList::of) {
        // SAFETY: lists and buffers by `call!`; places and counts are this call's alone.
        None => unsafe { call!(trufolmesca_refine_corners; request request, buffer places, buffer counts) },
        // SAFETY: as above; the camera's list is this function's own.
        Some(camera) => unsafe {
            call!(trufolmesca_refine_corners_mapped; request request, camera camera,
                buffer places, buffer counts)
        },
    })
}

/// The same, with the sheet of what was read and the blanked copy.
///
/// Refused by 1 to 7 or 25 it leaves sheet and copy as they were; otherwise, refused or not, it writes
/// the first width × height bytes of both.
pub fn refine_corners_marking(request: &Request, sheet: &mut [u8], copy: &mut [u8]) -> Written<Answer> {
    if let Some(settings) = &request.settings {
        return refine_corners_marking_with(request, &settings_list(settings), sheet, copy);
    }
    refinement(|places, counts| match request.camera.as_ref().map(CameraList::of) {
        // SAFETY: lists and buffers by `call!`; places and counts are this call's alone, and so are
        // sheet and copy, which are borrowed as `&mut`.
        None => unsafe {
            call!(trufolmesca_refine_corners_marking; request request,
                buffer places, buffer counts, buffer sheet, buffer copy)
        },
        // SAFETY: as above; the camera's list is this function's own.
        Some(camera) => unsafe {
            call!(trufolmesca_refine_corners_mapped_marking; request request, camera camera,
                buffer places, buffer counts, buffer sheet, buffer copy)
        },
    })
}

/// A label's corners under settings that are given as C takes them, in the place of the request's: a
/// list of nine numbers, of which any may be wrong, or of another length.
pub fn refine_corners_with(request: &Request, settings: &[f64]) -> Written<Answer> {
    let camera = request.camera.as_ref().map(CameraList::of);
    let (camera, lens) = any_camera(camera.as_ref());
    // SAFETY: lists and buffers by `call!`; places and counts are this call's alone.
    refinement(|places, counts| unsafe {
        call!(trufolmesca_refine_corners_with; request request, list camera, value lens, list settings,
            buffer places, buffer counts)
    })
}

/// The same, with the sheet of what was read and the blanked copy.
pub fn refine_corners_marking_with(
    request: &Request,
    settings: &[f64],
    sheet: &mut [u8],
    copy: &mut [u8],
) -> Written<Answer> {
    let camera = request.camera.as_ref().map(CameraList::of);
    let (camera, lens) = any_camera(camera.as_ref());
    // SAFETY: lists and buffers by `call!`; places and counts are this call's alone, and so are sheet
    // and copy, which are borrowed as `&mut`.
    refinement(|places, counts| unsafe {
        call!(trufolmesca_refine_corners_marking_with; request request, list camera, value lens, list settings,
            buffer places, buffer counts, buffer sheet, buffer copy)
    })
}

/// The value of a photograph at a place.
pub fn sample_bilinear(photograph: &Photograph, place: Place, border: Border) -> Written<[f64; 1]> {
    let (border, constant) = match border {
        Border::Reject => (0, 0),
        Border::Clamp => (1, 0),
        Border::Constant(value) => (2, value),
    };
    // SAFETY: lists and buffers by `call!`; the buffer is this call's alone.
    written(|out| unsafe {
        call!(trufolmesca_sample_bilinear; photograph photograph, value place[0], value place[1],
            value border, value constant, buffer out)
    })
}

/// The point of an edge along a normal, on the photograph or through a camera.
pub fn localize_edge_point(photograph: &Photograph, camera: Option<&Camera>, aim: &Aim) -> Written<[f64; 3]> {
    let Aim { coarse: [x, y], normal: [nx, ny], step, inverted, inward_differs } = *aim;
    written(|out| match camera.map(CameraList::of) {
        // SAFETY: lists and buffers by `call!`; the buffer is this call's alone.
        None => unsafe {
            call!(trufolmesca_localize_edge_point; photograph photograph, value x, value y, value nx, value ny,
                value step, value inverted, value inward_differs, buffer out)
        },
        // SAFETY: as above; the camera's list is this function's own.
        Some(camera) => unsafe {
            call!(trufolmesca_localize_edge_point_mapped; photograph photograph, value x, value y, value nx,
                value ny, value step, value inverted, value inward_differs, camera camera, buffer out)
        },
    })
}

/// The same under settings that are given as C takes them: a list of nine numbers, of which any may be
/// wrong, or of another length.
pub fn localize_edge_point_with(
    photograph: &Photograph,
    camera: Option<&Camera>,
    aim: &Aim,
    settings: &[f64],
) -> Written<[f64; 3]> {
    let Aim { coarse: [x, y], normal: [nx, ny], step, inverted, inward_differs } = *aim;
    let camera = camera.map(CameraList::of);
    let (camera, lens) = any_camera(camera.as_ref());
    // SAFETY: lists and buffers by `call!`; the buffer is this call's alone.
    written(|out| unsafe {
        call!(trufolmesca_localize_edge_point_with; photograph photograph, value x, value y, value nx, value ny,
            value step, value inverted, value inward_differs, list camera, value lens, list settings, buffer out)
    })
}

/// Where a rectified place lies in the photograph.
pub fn rectified_to_source(camera: &Camera, place: Place) -> Written<Place> {
    let camera = CameraList::of(camera);
    // SAFETY: lists and buffers by `call!`; list and buffer are this function's own.
    written(|out| unsafe {
        call!(trufolmesca_rectified_to_source; camera camera, value place[0], value place[1], buffer out)
    })
}

/// The map of the unit square to four corners.
pub fn square_to_quad(corners: &Quad) -> Written<[f64; 9]> {
    // SAFETY: lists and buffers by `call!`; the buffer is this call's alone.
    written(|out| unsafe { call!(trufolmesca_square_to_quad; list corners.as_flattened(), buffer out) })
}

/// The map of one quad to another.
pub fn quad_to_quad(from: &Quad, to: &Quad) -> Written<[f64; 9]> {
    // SAFETY: lists and buffers by `call!`; the buffer is this call's alone.
    written(|out| unsafe {
        call!(trufolmesca_quad_to_quad; list from.as_flattened(), list to.as_flattened(), buffer out)
    })
}

/// Where a map sends a place.
pub(crate) fn map(map: &Map, place: Place) -> Place {
    // SAFETY: lists and buffers by `call!`; the buffer is this call's alone.
    filled(|out| unsafe { call!(trufolmesca_map; list map.0, value place[0], value place[1], buffer out) })
}

/// The map that scales by sx and sy.
pub(crate) fn scaled(sx: f64, sy: f64) -> [f64; 9] {
    // SAFETY: the buffer goes by `call!` and is this call's alone.
    filled(|out| unsafe { call!(trufolmesca_scaled; value sx, value sy, buffer out) })
}

/// A map's inverse up to a scale.
pub(crate) fn inverse(map: &Map) -> [f64; 9] {
    // SAFETY: lists and buffers by `call!`; the buffer is this call's alone.
    filled(|out| unsafe { call!(trufolmesca_inverse; list map.0, buffer out) })
}

/// The inner map and then the outer.
pub(crate) fn then(inner: &Map, outer: &Map) -> [f64; 9] {
    // SAFETY: lists and buffers by `call!`; the buffer is this call's alone.
    filled(|out| unsafe { call!(trufolmesca_then; list inner.0, list outer.0, buffer out) })
}

/// The line through weighted points.
pub fn fit_line_tls_weighted(xs: &[f64], ys: &[f64], weights: &[f64]) -> Written<[f64; 4]> {
    // SAFETY: lists and buffers by `call!`; the buffer is this call's alone.
    written(|out| unsafe {
        call!(trufolmesca_fit_line_tls_weighted; list xs, list ys, list weights, buffer out)
    })
}

/// Where two lines cross.
pub fn intersect_lines(a: &Line, b: &Line) -> Written<Place> {
    let (a, b) = (line_list(a), line_list(b));
    // SAFETY: lists and buffers by `call!`; lists and buffer are this function's own.
    written(|out| unsafe { call!(trufolmesca_intersect_lines; list a, list b, buffer out) })
}

/// A scan smoothed to a second buffer, whose heights behind the scan's stay; 0, 21 or 22, which
/// write nothing.
#[must_use]
pub fn smooth_to(scan: &[u16], window: u32, out: &mut [u16]) -> u32 {
    // SAFETY: lists and buffers by `call!`; the buffer is borrowed as `&mut`, so that it is no part
    // of the scan.
    unsafe { call!(trufolmesca_smooth_to; list scan, value window, buffer out) }
}

/// A scan smoothed over itself; 0, or 21, which writes nothing.
#[must_use]
pub fn smooth_over(scan: &mut [u16], window: u32) -> u32 {
    // SAFETY: the buffer goes by `call!` and is the call's only list.
    unsafe { call!(trufolmesca_smooth_over; buffer scan, value window) }
}

/// A job card run, its result card written to the front of a buffer; its number, whose refusals
/// write nothing.
#[must_use]
pub fn run_card(card: &[u8], out: &mut [u8]) -> u32 {
    // SAFETY: lists and buffers by `call!`; the buffer is borrowed as `&mut`, so that it is no part
    // of the card.
    unsafe { call!(trufolmesca_run_card; list card, buffer out) }
}

/// A result card in the older form made one of today's; 0, 23 or 12, which write nothing.
#[must_use]
pub fn widen_result_card(card: &[u8], out: &mut [u8]) -> u32 {
    // SAFETY: lists and buffers by `call!`; the buffer is borrowed as `&mut`, so that it is no part
    // of the card.
    unsafe { call!(trufolmesca_widen_result_card; list card, buffer out) }
}

/// A result card made one in the older form; 0, 23, 24 or 12, which write nothing.
#[must_use]
pub fn narrow_result_card(card: &[u8], out: &mut [u8]) -> u32 {
    // SAFETY: lists and buffers by `call!`; the buffer is borrowed as `&mut`, so that it is no part
    // of the card.
    unsafe { call!(trufolmesca_narrow_result_card; list card, buffer out) }
}
