//! The calls as C has them: `trufolmesca.h`, parameter by parameter.
//!
//! A list or buffer is a pointer and its length. The caller answers for both: a pointer is not null
//! and has as many values behind it as its length says, and a buffer overlaps no other list of the
//! same call.

// In the header's order and lines, so that the two can be read side by side.
#[rustfmt::skip]
unsafe extern "C" {
    /// A label's corners, refined on the photograph.
    pub fn trufolmesca_refine_corners(
        bytes: *const u8, bytes_len: usize, width: u32, height: u32, stride: u32,
        modules: *const u8, modules_len: usize, dim: u32, sx: f64, sy: f64,
        corners: *const f64, corners_len: usize, inverted: bool,
        places: *mut f64, places_len: usize, counts: *mut u32, counts_len: usize,
    ) -> u32;

    /// The same, seen through a camera.
    pub fn trufolmesca_refine_corners_mapped(
        bytes: *const u8, bytes_len: usize, width: u32, height: u32, stride: u32,
        modules: *const u8, modules_len: usize, dim: u32, sx: f64, sy: f64,
        corners: *const f64, corners_len: usize, inverted: bool,
        camera: *const f64, camera_len: usize, lens: u32,
        places: *mut f64, places_len: usize, counts: *mut u32, counts_len: usize,
    ) -> u32;

    /// A label's corners, with the sheet of what was read and the blanked copy.
    pub fn trufolmesca_refine_corners_marking(
        bytes: *const u8, bytes_len: usize, width: u32, height: u32, stride: u32,
        modules: *const u8, modules_len: usize, dim: u32, sx: f64, sy: f64,
        corners: *const f64, corners_len: usize, inverted: bool,
        places: *mut f64, places_len: usize, counts: *mut u32, counts_len: usize,
        sheet: *mut u8, sheet_len: usize, copy: *mut u8, copy_len: usize,
    ) -> u32;

    /// The same, seen through a camera; sheet and copy are of the photograph.
    pub fn trufolmesca_refine_corners_mapped_marking(
        bytes: *const u8, bytes_len: usize, width: u32, height: u32, stride: u32,
        modules: *const u8, modules_len: usize, dim: u32, sx: f64, sy: f64,
        corners: *const f64, corners_len: usize, inverted: bool,
        camera: *const f64, camera_len: usize, lens: u32,
        places: *mut f64, places_len: usize, counts: *mut u32, counts_len: usize,
        sheet: *mut u8, sheet_len: usize, copy: *mut u8, copy_len: usize,
    ) -> u32;

    /// The same under settings, through a camera or without one where its list is empty.
    pub fn trufolmesca_refine_corners_with(
        bytes: *const u8, bytes_len: usize, width: u32, height: u32, stride: u32,
        modules: *const u8, modules_len: usize, dim: u32, sx: f64, sy: f64,
        corners: *const f64, corners_len: usize, inverted: bool,
        camera: *const f64, camera_len: usize, lens: u32, settings: *const f64, settings_len: usize,
        places: *mut f64, places_len: usize, counts: *mut u32, counts_len: usize,
    ) -> u32;

    /// The same, with the sheet of what was read and the blanked copy.
    pub fn trufolmesca_refine_corners_marking_with(
        bytes: *const u8, bytes_len: usize, width: u32, height: u32, stride: u32,
        modules: *const u8, modules_len: usize, dim: u32, sx: f64, sy: f64,
        corners: *const f64, corners_len: usize, inverted: bool,
        camera: *const f64, camera_len: usize, lens: u32, settings: *const f64, settings_len: usize,
        places: *mut f64, places_len: usize, counts: *mut u32, counts_len: usize,
        sheet: *mut u8, sheet_len: usize, copy: *mut u8, copy_len: usize,
    ) -> u32;

    /// The value of a photograph at a place.
    pub fn trufolmesca_sample_bilinear(
        bytes: *const u8, bytes_len: usize, width: u32, height: u32, stride: u32,
        x: f64, y: f64, border: u32, constant: u8, value: *mut f64, value_len: usize,
    ) -> u32;

    /// Where a rectified place lies in the photograph.
    pub fn trufolmesca_rectified_to_source(
        camera: *const f64, camera_len: usize, lens: u32, x: f64, y: f64, place: *mut f64, place_len: usize,
    ) -> u32;

    /// The map of the unit square to four corners.
    pub fn trufolmesca_square_to_quad(
        corners: *const f64, corners_len: usize, map: *mut f64, map_len: usize,
    ) -> u32;

    /// The map of one quad to another.
    pub fn trufolmesca_quad_to_quad(
        from: *const f64, from_len: usize, to: *const f64, to_len: usize, map: *mut f64, map_len: usize,
    ) -> u32;

    /// Where a map sends a place.
    pub fn trufolmesca_map(
        map: *const f64, map_len: usize, u: f64, v: f64, place: *mut f64, place_len: usize,
    );

    /// The map that scales.
    pub fn trufolmesca_scaled(sx: f64, sy: f64, map: *mut f64, map_len: usize);

    /// A map's inverse up to a scale.
    pub fn trufolmesca_inverse(map: *const f64, map_len: usize, out: *mut f64, out_len: usize);

    /// The inner map and then the outer.
    pub fn trufolmesca_then(
        inner: *const f64, inner_len: usize, outer: *const f64, outer_len: usize, out: *mut f64, out_len: usize,
    );

    /// The line through weighted points.
    pub fn trufolmesca_fit_line_tls_weighted(
        xs: *const f64, xs_len: usize, ys: *const f64, ys_len: usize, weights: *const f64, weights_len: usize,
        line: *mut f64, line_len: usize,
    ) -> u32;

    /// Where two lines cross.
    pub fn trufolmesca_intersect_lines(
        a: *const f64, a_len: usize, b: *const f64, b_len: usize, place: *mut f64, place_len: usize,
    ) -> u32;

    /// An edge point along a normal.
    pub fn trufolmesca_localize_edge_point(
        bytes: *const u8, bytes_len: usize, width: u32, height: u32, stride: u32,
        coarse_x: f64, coarse_y: f64, normal_x: f64, normal_y: f64, step: f64, inverted: bool, inward_differs: bool,
        point: *mut f64, point_len: usize,
    ) -> u32;

    /// The same, seen through a camera.
    pub fn trufolmesca_localize_edge_point_mapped(
        bytes: *const u8, bytes_len: usize, width: u32, height: u32, stride: u32,
        coarse_x: f64, coarse_y: f64, normal_x: f64, normal_y: f64, step: f64, inverted: bool, inward_differs: bool,
        camera: *const f64, camera_len: usize, lens: u32,
        point: *mut f64, point_len: usize,
    ) -> u32;

    /// The same under settings, through a camera or without one where its list is empty.
    pub fn trufolmesca_localize_edge_point_with(
        bytes: *const u8, bytes_len: usize, width: u32, height: u32, stride: u32,
        coarse_x: f64, coarse_y: f64, normal_x: f64, normal_y: f64, step: f64, inverted: bool, inward_differs: bool,
        camera: *const f64, camera_len: usize, lens: u32, settings: *const f64, settings_len: usize,
        point: *mut f64, point_len: usize,
    ) -> u32;

    /// A scan, smoothed to a second buffer.
    pub fn trufolmesca_smooth_to(
        scan: *const u16, scan_len: usize, window: u32, out: *mut u16, out_len: usize,
    ) -> u32;

    /// A scan, smoothed over itself.
    pub fn trufolmesca_smooth_over(scan: *mut u16, scan_len: usize, window: u32) -> u32;

    /// A job card run, its result card written to a buffer.
    pub fn trufolmesca_run_card(card: *const u8, card_len: usize, out: *mut u8, out_len: usize) -> u32;

    /// A result card in the older form made one of today's.
    pub fn trufolmesca_widen_result_card(card: *const u8, card_len: usize, out: *mut u8, out_len: usize) -> u32;

    /// A result card made one in the older form.
    pub fn trufolmesca_narrow_result_card(card: *const u8, card_len: usize, out: *mut u8, out_len: usize) -> u32;

    /// The square root, rounded once: it takes no list, so that nothing can be passed wrongly.
    pub safe fn trufolmesca_sqrt(x: f64) -> f64;
}
