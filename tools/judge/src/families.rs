//! Jobs from a seed. Each family aims at one part of document 01.
use crate::draw::{posed, Canvas, Label};
use crate::job::{Camera, Job, Lens};
use crate::rng::{neighbour, Rng};
use crate::steer;

type Family = (&'static str, u32, fn(&mut Rng) -> Job);

/// Name, how often in a hundred or so, and how it is made.
pub const FAMILIES: &[Family] = &[
    ("label", 11, label),
    ("lattice", 3, lattice),
    ("lens", 14, lens),
    ("fisheye", 10, fisheye),
    ("faint", 8, faint),
    ("partial", 6, partial),
    ("wide", 3, wide),
    ("small", 6, small),
    ("noise", 6, noise),
    ("stripes", 6, stripes),
    ("tiny", 6, tiny),
    ("degenerate", 6, degenerate),
    ("off", 3, off),
    ("extreme", 6, extreme),
    ("thin", 6, thin),
    ("zoom", 6, zoom),
    ("limits", 1, limits),
    ("refused", 6, refused),
    ("shrunk", 1, steer::shrunk),
    ("folded", 1, steer::folded),
];

pub fn job(seed: u64, only: Option<&str>) -> Job {
    let mut r = Rng::new(seed);
    let named = |name: &str| FAMILIES.iter().find(|f| f.0 == name);
    let family = match only {
        Some(name) => named(name).unwrap_or_else(|| panic!("no family {name}")),
        None => {
            let mut k = r.below(FAMILIES.iter().map(|f| f.1 as u64).sum());
            FAMILIES
                .iter()
                .find(|f| {
                    let here = k < f.1 as u64;
                    k = k.wrapping_sub(f.1 as u64);
                    here
                })
                .expect("k is below the sum")
        }
    };
    let mut job = family.2(&mut r);
    job.family = family.0;
    job
}

// ---- parts

/// Modules: as a code has them, or of any density.
pub fn modules(r: &mut Rng, dim: usize) -> Vec<u8> {
    if dim >= 21 && r.chance(0.5) {
        return modules_like_a_code(r, dim);
    }
    let density = r.pick(&[0.5, 0.5, 0.5, 0.8, 1.0, 0.3, 0.1]);
    (0..dim * dim).map(|_| r.chance(density) as u8).collect()
}

/// Half dark, with three finders.
fn modules_like_a_code(r: &mut Rng, dim: usize) -> Vec<u8> {
    let mut m: Vec<u8> = (0..dim * dim).map(|_| r.chance(0.5) as u8).collect();
    for (bx, by) in [(0, 0), (dim - 7, 0), (0, dim - 7)] {
        for y in 0..7 {
            for x in 0..7 {
                let ring = x == 0 || y == 0 || x == 6 || y == 6;
                let core = (2..5).contains(&x) && (2..5).contains(&y);
                m[(by + y) * dim + bx + x] = (ring || core) as u8;
            }
        }
    }
    m
}

/// Working pixels for a source pixel, along each axis.
fn scales(r: &mut Rng) -> (f64, f64) {
    let one = |r: &mut Rng| match r.below(6) {
        0 => 0.5,
        1 => 2.0,
        2 => 1.0 / 3.0,
        3 => r.range(0.1, 1.0),
        4 => r.decades(-3.0, 3.0),
        _ => 1.0,
    };
    if r.chance(0.5) {
        (1.0, 1.0)
    } else {
        (one(r), one(r))
    }
}

fn stride(r: &mut Rng, width: usize) -> usize {
    if r.chance(0.6) {
        width
    } else {
        width + r.below(40) as usize
    }
}

/// Off by up to so many modules.
fn rough(r: &mut Rng, q: [[f64; 2]; 4], module: f64, most: f64) -> [[f64; 2]; 4] {
    q.map(|[x, y]| [x + r.range(-most, most) * module, y + r.range(-most, most) * module])
}

/// How a label is drawn.
struct Style {
    dim: usize,
    /// pixels of a module
    module: f64,
    contrast: f64,
    noise: f64,
    blur: usize,
    fine: usize,
    tilt: f64,
    /// how far off the corners are, in modules
    rough: f64,
    quiet: f64,
}

impl Style {
    fn any(r: &mut Rng) -> Self {
        Style {
            dim: r.pick(&[21, 21, 21, 25, 29, 33]),
            module: r.range(2.0, 6.5),
            contrast: r.range(60.0, 250.0),
            noise: r.pick(&[0.0, 0.0, 1.0, 2.0, 5.0, 12.0]),
            blur: r.below(4) as usize,
            fine: 1 + r.below(2) as usize,
            tilt: r.range(0.0, 1.1),
            rough: r.pick(&[0.0, 0.1, 0.3, 0.3, 0.5, 0.8, 1.0]),
            quiet: r.pick(&[4.0, 4.0, 2.0, 1.0, 30.0]),
        }
    }
}

/// A drawn label. `camera` is asked for a picture's size.
fn drawn(r: &mut Rng, s: Style, camera: impl FnOnce(&mut Rng, f64, f64) -> Option<Camera>) -> Job {
    let modules = modules(r, s.dim);
    let half = s.module * s.dim as f64 / 2.0;
    let reach = half * r.range(1.2, 1.9) + 3.0 * s.module;
    let (width, height) = (2.0 * reach * r.range(0.9, 1.3), 2.0 * reach * r.range(0.9, 1.3));
    let (width, height) = ((width as usize).max(8), (height as usize).max(8));
    let centre = [width as f64 * r.range(0.4, 0.6), height as f64 * r.range(0.4, 0.6)];
    let camera = camera(r, width as f64, height as f64);
    // The label stands in the rectified picture, so that it is seen around the centre.
    let middle = camera.map_or(centre, |c| c.unproject(centre));
    let corner = camera.map_or([centre[0] + 1.0, centre[1] + 1.0], |c| c.unproject([centre[0] + 1.0, centre[1] + 1.0]));
    let scale = (((corner[0] - middle[0]).powi(2) + (corner[1] - middle[1]).powi(2)) / 2.0).sqrt();
    let scale = if scale.is_finite() && scale > 0.0 { scale } else { 1.0 };
    let quad = posed(r, middle, half * 1.2 * scale, s.tilt);
    let inverted = r.chance(0.5);
    let low = r.range(0.0, 255.0 - s.contrast);
    let (ink, paper) = if inverted { (low + s.contrast, low) } else { (low, low + s.contrast) };
    let ground = if r.chance(0.5) { paper } else { r.range(0.0, 255.0) };
    let mut canvas = Canvas::new(width, height, ground as f32);
    let label = Label {
        dim: s.dim,
        modules: &modules,
        corners: quad,
        camera,
        ink: ink as f32,
        paper: paper as f32,
        quiet: s.quiet,
    };
    // A bent picture takes its own time.
    label.draw(&mut canvas, if camera.is_some() { 1 } else { s.fine });
    canvas.blur(s.blur);
    let stride = stride(r, width);
    let bytes = canvas.bytes(r, stride, s.noise);
    let (sx, sy) = scales(r);
    let corners = rough(r, quad, s.module * scale, s.rough).map(|[x, y]| [x * sx, y * sy]);
    Job {
        family: "",
        width: width as u32,
        height: height as u32,
        stride: stride as u32,
        bytes,
        dim: s.dim as u32,
        modules,
        sx,
        sy,
        corners,
        inverted,
        camera,
        settings: None,
    }
}

/// A camera: the one that changes nothing, no lens, zero coefficients, weak and strong ones.
pub fn camera(r: &mut Rng, width: f64, height: f64) -> Camera {
    let f = width.max(height) * r.range(0.6, 2.0);
    let c = [f, f * r.range(0.95, 1.05), width * r.range(0.4, 0.6), height * r.range(0.4, 0.6)];
    let near = |r: &mut Rng, by: f64| c.map(|v| v * r.range(1.0 - by, 1.0 + by));
    let (rectified, lens) = match r.below(9) {
        0 => (c, Lens::None),
        1 => (c, Lens::BrownConrady([0.0; 5])),
        2 => (near(r, 0.2), Lens::None),
        3 => (near(r, 0.2), Lens::BrownConrady([0.0, -0.0, 0.0, -0.0, 0.0])),
        4 | 5 | 6 => {
            let k = [r.range(-0.1, 0.1), r.range(-0.05, 0.05), r.range(-0.003, 0.003), r.range(-0.003, 0.003), r.range(-0.01, 0.01)];
            (near(r, 0.05), Lens::BrownConrady(k))
        }
        7 => {
            let k = [r.range(-0.5, 0.5), r.range(-0.3, 0.3), r.range(-0.05, 0.05), r.range(-0.05, 0.05), r.range(-0.2, 0.2)];
            (near(r, 0.1), Lens::BrownConrady(k))
        }
        _ => {
            let k = [r.range(-3.0, 3.0), r.range(-3.0, 3.0), r.range(-1.0, 1.0), r.range(-1.0, 1.0), r.range(-3.0, 3.0)];
            (near(r, 0.5), Lens::BrownConrady(k))
        }
    };
    Camera { source: c, rectified, lens }
}

/// A fisheye: equidistant, weak, strong, and so strong that it has no image at its rim, with up to 120 degrees across a picture.
pub fn fisheye_camera(r: &mut Rng, width: f64, height: f64) -> Camera {
    let c = camera(r, width, height);
    let wide = if r.chance(0.5) { r.range(0.4, 1.0) } else { 1.0 };
    let wider = |i: [f64; 4]| [i[0] * wide, i[1] * wide, i[2], i[3]];
    let most = r.pick(&[0.0, 0.05, 0.05, 0.3, 3.0]);
    let k = [1.0, 0.5, 0.2, 0.1].map(|by| most * by * r.range(-1.0, 1.0));
    Camera { source: wider(c.source), rectified: wider(c.rectified), lens: Lens::Fisheye(k) }
}

// ---- families

fn label(r: &mut Rng) -> Job {
    let s = Style::any(r);
    drawn(r, s, |_, _, _| None)
}

fn lens(r: &mut Rng) -> Job {
    let s = Style::any(r);
    drawn(r, s, |r, w, h| Some(camera(r, w, h)))
}

/// A label through a fisheye, or a job of another family with one before its camera, or in the place of its lens.
fn fisheye(r: &mut Rng) -> Job {
    if r.chance(0.5) {
        let mut s = Style::any(r);
        if r.chance(0.2) {
            s.contrast = r.range(8.0, 30.0);
        }
        return drawn(r, s, |r, w, h| Some(fisheye_camera(r, w, h)));
    }
    let mut job = r.pick(&[partial, wide, small, noise, stripes, lattice, tiny, degenerate, off, extreme, thin, zoom, limits, refused])(r);
    let c = fisheye_camera(r, job.width as f64, job.height as f64);
    job.camera = Some(match job.camera {
        Some(own) => Camera { lens: behind(r, own, c.lens), ..own },
        None if r.chance(0.3) => Camera { rectified: c.source, ..c },
        None => c,
    });
    job
}

/// The fisheye for another family's camera, with a coefficient that was not finite carried over, and some as small as its own.
fn behind(r: &mut Rng, own: Camera, fisheye: Lens) -> Lens {
    let Lens::Fisheye(mut k) = fisheye else { return fisheye };
    for (at, v) in own.lens.coefficients().iter().enumerate() {
        if !v.is_finite() || r.chance(0.3) {
            k[at % 4] = *v;
        }
    }
    Lens::Fisheye(k)
}

/// Contrasts around the floor of 12, so that edges come and go from round to round.
fn faint(r: &mut Rng) -> Job {
    let mut s = Style::any(r);
    s.contrast = r.range(8.0, 30.0);
    s.noise = r.pick(&[0.0, 0.5, 1.0, 2.0, 4.0]);
    s.rough = r.pick(&[0.3, 0.8, 1.0, 1.3]);
    let with = r.chance(0.4);
    drawn(r, s, |r, w, h| with.then(|| camera(r, w, h)))
}

/// Some edges covered, or whole without dark modules: few valid edges, and flags partly on.
fn partial(r: &mut Rng) -> Job {
    let s = Style::any(r);
    let dim = s.dim;
    let with = r.chance(0.4);
    let mut job = drawn(r, s, |r, w, h| with.then(|| camera(r, w, h)));
    let keep = r.below(16);
    for e in 0..4usize {
        if keep >> e & 1 == 1 {
            continue;
        }
        if r.chance(0.5) {
            // The grid says light, so that nothing is probed, or all but few.
            let left = if r.chance(0.3) { 4 } else { 0 };
            for m in left..dim {
                let at = [m, m * dim + dim - 1, (dim - 1) * dim + m, m * dim][e];
                job.modules[at] = 0;
            }
        } else {
            // A grey patch lies over the edge.
            let q = job.source_corners();
            let (a, b) = (q[e], q[(e + 1) % 4]);
            let grey = r.below(256) as u8;
            let wide = r.range(2.0, 14.0);
            for k in 0..=200 {
                let t = k as f64 / 200.0;
                let p = [a[0] + (b[0] - a[0]) * t, a[1] + (b[1] - a[1]) * t];
                let p = job.camera.map_or(p, |c| c.project(p));
                for y in (p[1] - wide).max(0.0) as i64..=(p[1] + wide).min(job.height as f64 - 1.0) as i64 {
                    for x in (p[0] - wide).max(0.0) as i64..=(p[0] + wide).min(job.width as f64 - 1.0) as i64 {
                        job.bytes[y as usize * job.stride as usize + x as usize] = grey;
                    }
                }
            }
        }
    }
    job
}

/// Large dimensions, where the probes are thinned.
fn wide(r: &mut Rng) -> Job {
    let mut s = Style::any(r);
    s.dim = r.pick(&[35, 36, 37, 45, 57, 69, 101, 177]);
    s.module = r.range(1.2, 2.5);
    s.blur = r.below(2) as usize;
    s.tilt = r.range(0.0, 0.6);
    s.rough = r.pick(&[0.0, 0.3, 0.6, 1.0]);
    let with = r.chance(0.4);
    drawn(r, s, |r, w, h| with.then(|| camera(r, w, h)))
}

/// Dimensions below any code's.
fn small(r: &mut Rng) -> Job {
    let mut s = Style::any(r);
    s.dim = 2 + r.below(19) as usize;
    s.module = r.range(2.0, 16.0);
    let with = r.chance(0.3);
    let mut job = drawn(r, s, |r, w, h| with.then(|| camera(r, w, h)));
    if r.chance(0.5) {
        job.modules.fill(1);
    }
    job
}

fn bare(r: &mut Rng, width: usize, height: usize, bytes: Vec<u8>, stride: usize, corners: [[f64; 2]; 4]) -> Job {
    let dim = match r.below(4) {
        0 => r.int(2, 12) as usize,
        1 => r.int(6, 40) as usize,
        2 => 21,
        _ => r.int(2, 177) as usize,
    };
    let modules = modules(r, dim);
    let camera = r.chance(0.3).then(|| camera(r, width as f64, height as f64));
    Job {
        family: "",
        width: width as u32,
        height: height as u32,
        stride: stride as u32,
        bytes,
        dim: dim as u32,
        modules,
        sx: 1.0,
        sy: 1.0,
        corners,
        inverted: r.chance(0.5),
        camera,
        settings: None,
    }
}

fn any_quad(r: &mut Rng, width: f64, height: f64) -> [[f64; 2]; 4] {
    if r.chance(0.5) {
        let half = width.min(height) * r.range(0.1, 0.5);
        let tilt = r.range(0.0, 1.4);
        posed(r, [width / 2.0, height / 2.0], half, tilt)
    } else {
        [0; 4].map(|_| [r.range(-0.1, 1.1) * width, r.range(-0.1, 1.1) * height])
    }
}

/// Smooth or rough noise, and any quad.
fn noise(r: &mut Rng) -> Job {
    let (w, h) = (r.int(10, 90) as usize, r.int(10, 90) as usize);
    let mut canvas = Canvas::new(w, h, 0.0);
    let strong = r.chance(0.5);
    for v in &mut canvas.luma {
        *v = if strong { r.pick(&[0.0, 255.0]) } else { r.range(0.0, 255.0) as f32 };
    }
    let times = r.below(6) as usize;
    canvas.blur(times);
    let stride = stride(r, w);
    let bytes = canvas.bytes(r, stride, 0.0);
    let quad = any_quad(r, w as f64, h as f64);
    let mut job = bare(r, w, h, bytes, stride, quad);
    if r.chance(0.5) {
        // few and large modules, so that a profile reaches across the noise
        job.dim = r.int(6, 12) as u32;
        job.modules = vec![1; (job.dim * job.dim) as usize];
    }
    job
}

/// Sharp black and white at whole pixels, and corners on whole, half and quarter ones: ties and zeros.
fn stripes(r: &mut Rng) -> Job {
    let dim = r.pick(&[6, 6, 7, 8, 9, 10, 12, 16, 21]);
    let per = r.pick(&[1, 2, 3, 4, 4, 5, 6, 8]).min(120 / dim);
    let (x0, y0) = (r.int(2, 12) as usize, r.int(2, 12) as usize);
    let room = |r: &mut Rng, from: usize| from + dim * per + r.below(14) as usize;
    let (w, h) = (room(r, x0), room(r, y0));
    let modules = modules(r, dim);
    let levels = r.pick(&[(0.0, 255.0), (20.0, 32.0), (20.0, 31.0), (100.0, 124.0), (0.0, 128.0)]);
    let inverted = r.chance(0.5);
    let (ink, paper) = if inverted { (levels.1, levels.0) } else { levels };
    let mut canvas = Canvas::new(w, h, paper as f32);
    for y in 0..dim * per {
        for x in 0..dim * per {
            if x0 + x < w && y0 + y < h && modules[(y / per) * dim + x / per] == 1 {
                canvas.luma[(y0 + y) * w + x0 + x] = ink as f32;
            }
        }
    }
    let times = r.below(3) as usize;
    canvas.blur(times);
    let stride = stride(r, w);
    let bytes = canvas.bytes(r, stride, 0.0);
    let side = (dim * per) as f64;
    let (x, y) = (x0 as f64 - 0.5, y0 as f64 - 0.5);
    let shift = |r: &mut Rng| r.int(-3, 3) as f64 * r.pick(&[0.0, 0.25, 0.5]);
    let quad = [[x, y], [x + side, y], [x + side, y + side], [x, y + side]].map(|[x, y]| [x + shift(r), y + shift(r)]);
    let turn = r.below(4) as usize;
    let quad = if r.chance(0.2) { [0, 1, 2, 3].map(|i| quad[(i + turn) % 4]) } else { quad };
    let mut job = bare(r, w, h, bytes, stride, quad);
    job.dim = dim as u32;
    job.modules = modules;
    job.inverted = inverted;
    if r.chance(0.7) {
        job.camera = None;
    }
    job
}

/// Upright labels with whole corners and modules of whole pixels, so that samples fall on columns and rows; half of
/// their sides lie where a profile ends at the picture's first or last column or row.
fn lattice(r: &mut Rng) -> Job {
    let dim = r.pick(&[6, 7, 8, 10, 12, 21]);
    let per = r.pick(&[2, 4, 4, 6, 8, 10, 20]).min(168 / dim / 2 * 2);
    let margin = |r: &mut Rng| 3 * per / 2 + if r.chance(0.5) { 0 } else { 1 + r.below(6) as usize };
    let [left, right, top, bottom] = [0; 4].map(|_| margin(r));
    let side = dim * per;
    let (w, h) = (left + side + right + 1, top + side + bottom + 1);
    let modules = modules(r, dim);
    let inverted = r.chance(0.5);
    let (ink, paper) = if inverted { (220.0, 40.0) } else { (40.0, 220.0) };
    let mut canvas = Canvas::new(w, h, paper);
    let quad = [[left, top], [left + side, top], [left + side, top + side], [left, top + side]].map(|p| p.map(|v| v as f64));
    Label { dim, modules: &modules, corners: quad, camera: None, ink, paper, quiet: 4.0 }.draw(&mut canvas, 2);
    let times = r.below(3) as usize;
    canvas.blur(times);
    let noise = r.pick(&[0.0, 0.0, 2.0]);
    let stride = stride(r, w);
    let bytes = canvas.bytes(r, stride, noise);
    let mut job = bare(r, w, h, bytes, stride, quad);
    job.dim = dim as u32;
    job.modules = modules;
    job.inverted = inverted;
    job.camera = r.chance(0.4).then(|| lattice_camera(r, &mut job.corners));
    let scale = r.pick(&[1.0, 1.0, 0.5, 2.0]);
    (job.sx, job.sy) = (scale, scale);
    job.corners = job.corners.map(|p| p.map(|v| v * scale));
    job
}

/// A camera without a lens: one that moves the picture by whole pixels, and these corners with it, or one under which
/// an axis shrinks to nothing, so that what lies before its centre is seen at -0.
fn lattice_camera(r: &mut Rng, corners: &mut [[f64; 2]; 4]) -> Camera {
    let (mut source, mut rectified) = ([64.0, 64.0, 32.0, 16.0], [64.0, 64.0, 32.0, 16.0]);
    if r.chance(0.5) {
        let axis = r.below(2) as usize;
        (source[axis], source[axis + 2], rectified[axis]) = (1e-200, -0.0, 1e200);
        return Camera { source, rectified, lens: Lens::None };
    }
    let by = [r.int(-5, 5) as f64, r.int(-5, 5) as f64];
    *corners = corners.map(|[x, y]| [x + by[0], y + by[1]]);
    (rectified[2], rectified[3]) = (rectified[2] + by[0], rectified[3] + by[1]);
    Camera { source, rectified, lens: Lens::None }
}

fn tiny(r: &mut Rng) -> Job {
    let (w, h) = (r.int(1, 12) as usize, r.int(1, 12) as usize);
    let stride = stride(r, w);
    let extra = r.below(3) as usize;
    let bytes = r.bytes((h - 1) * stride + w + extra);
    let whole = r.chance(0.3);
    let quad = any_quad(r, w as f64, h as f64).map(|p| if whole { p.map(|v| v.round()) } else { p });
    let mut job = bare(r, w, h, bytes, stride, quad);
    if r.chance(0.5) {
        job.modules.fill(1);
    }
    job
}

/// Quads without a map, and their neighbours.
fn degenerate(r: &mut Rng) -> Job {
    let mut job = if r.chance(0.5) { label(r) } else { noise(r) };
    let (w, h) = (job.width as f64, job.height as f64);
    let p = |r: &mut Rng| [r.range(0.0, w), r.range(0.0, h)];
    let (a, b) = (p(r), p(r));
    let on = |a: [f64; 2], b: [f64; 2], t: f64| [a[0] + (b[0] - a[0]) * t, a[1] + (b[1] - a[1]) * t];
    let good = job.source_corners();
    let mut quad = match r.below(12) {
        // all one point, two points, three
        0 => [a; 4],
        1 => [a, a, b, b],
        2 => [a, b, b, a],
        3 => [a, b, a, b],
        4 => {
            let (i, j) = (r.below(4) as usize, r.below(4) as usize);
            let mut q = good;
            q[i] = q[j];
            q
        }
        // on one line
        5 => [0; 4].map(|_| on(a, b, r.unit())),
        6 => {
            let y = r.int(0, 20) as f64;
            [0; 4].map(|_| [r.int(0, 30) as f64, y])
        }
        // three on one line
        7 => {
            let mut q = good;
            let i = r.below(4) as usize;
            let t = r.unit();
            q[i] = on(q[(i + 1) % 4], q[(i + 3) % 4], t);
            q
        }
        // a bow tie, and inside out
        8 => [good[0], good[2], good[1], good[3]],
        9 => [good[3], good[2], good[1], good[0]],
        // a parallelogram of whole numbers, perhaps flat
        10 => {
            let (a, d, e) = ([r.int(0, 9), r.int(0, 9)], [r.int(-4, 20), r.int(-4, 20)], [r.int(-4, 20), r.int(-4, 20)]);
            let at = |u: i64, v: i64| [(a[0] + u * d[0] + v * e[0]) as f64, (a[1] + u * d[1] + v * e[1]) as f64];
            [at(0, 0), at(1, 0), at(1, 1), at(0, 1)]
        }
        // a corner beyond the opposite ones: not convex
        _ => {
            let mut q = good;
            let i = r.below(4) as usize;
            let t = r.range(-0.5, 0.5);
            q[i] = on(q[(i + 2) % 4], q[i], t);
            q
        }
    };
    if r.chance(0.5) {
        let by = r.decades(-13.0, 0.0);
        let i = r.below(4) as usize;
        quad[i][r.below(2) as usize] += by;
    }
    job.corners = quad.map(|[x, y]| [x * job.sx, y * job.sy]);
    job
}

/// Corners partly or wholly off the picture.
fn off(r: &mut Rng) -> Job {
    let mut job = match r.below(3) {
        0 => lens(r),
        1 => small(r),
        _ => label(r),
    };
    let (w, h) = (job.width as f64, job.height as f64);
    match r.below(3) {
        0 => {
            let by = [r.range(-1.0, 1.0) * w * job.sx, r.range(-1.0, 1.0) * h * job.sy];
            job.corners = job.corners.map(|[x, y]| [x + by[0], y + by[1]]);
        }
        1 => {
            let by = r.range(0.5, 3.0);
            job.corners = job.corners.map(|[x, y]| [x * by, y * by]);
        }
        _ => {
            // The picture ends within the label.
            let keep = |r: &mut Rng, n: u32| (n as f64 * r.range(0.3, 1.0)).max(1.0) as u32;
            job.width = keep(r, job.width);
            job.height = keep(r, job.height);
            let needed = (job.height as usize - 1) * job.stride as usize + job.width as usize;
            job.bytes.truncate(needed);
        }
    }
    job
}

/// Floats at the ends of their ranges, where the entry checks still let them in.
fn extreme(r: &mut Rng) -> Job {
    let mut job = match r.below(4) {
        0 => tiny(r),
        1 => noise(r),
        2 => stripes(r),
        _ => label(r),
    };
    let wild = |r: &mut Rng| match r.below(6) {
        0 => 1048576.0 * r.pick(&[1.0, -1.0]),
        1 => neighbour(1048576.0, -1) * r.pick(&[1.0, -1.0]),
        2 => r.range(-1.0, 1.0) * r.decades(-320.0, 6.0),
        3 => r.pick(&[0.0, -0.0, 5e-324, -5e-324, 2.2250738585072014e-308, 1e-160, 1e-9, 1e-6]),
        4 => r.int(-4, 4) as f64,
        _ => r.range(-1048576.0, 1048576.0),
    };
    match r.below(5) {
        0 => {
            // scales that take the corners to the ends, or to 0
            let by = r.decades(-300.0, 300.0);
            (job.sx, job.sy) = (job.sx * by, job.sy * by);
            job.corners = job.corners.map(|p| p.map(|v| v * by));
        }
        1 => {
            (job.sx, job.sy) = (r.decades(-308.0, 308.0), r.decades(-308.0, 308.0));
            let (sx, sy) = (job.sx, job.sy);
            job.corners = job.corners.map(|_| [wild(r) * sx, wild(r) * sy]);
        }
        2 => {
            let (sx, sy) = (job.sx, job.sy);
            for k in 0..4 {
                if r.chance(0.5) {
                    job.corners[k] = [wild(r) * sx, wild(r) * sy];
                }
            }
        }
        3 => {
            (job.sx, job.sy) = (1.0, 1.0);
            let base = wild(r);
            job.corners = job.corners.map(|_| [base + wild(r) * 1e-3, wild(r)]);
        }
        _ => {
            // cameras of every size
            let mut c = camera(r, job.width as f64, job.height as f64);
            for k in 0..4 {
                if r.chance(0.3) {
                    let v = r.decades(-300.0, 300.0);
                    c.source[k] = v;
                }
                if r.chance(0.3) {
                    let v = r.decades(-300.0, 300.0);
                    c.rectified[k] = v;
                }
            }
            for v in c.lens.coefficients_mut() {
                if r.chance(0.3) {
                    *v = r.range(-1.0, 1.0) * r.decades(-300.0, 308.0);
                }
            }
            job.camera = Some(c);
        }
    }
    job
}

/// Two opposite sides of about 1e-9 pixel: the points of an edge hardly spread.
fn thin(r: &mut Rng) -> Job {
    let (w, h) = (r.int(20, 60) as usize, r.int(20, 60) as usize);
    let mut canvas = Canvas::new(w, h, 0.0);
    let (low, high) = (r.range(0.0, 120.0), r.range(130.0, 255.0));
    let inverted = r.chance(0.5);
    let (ink, paper) = if inverted { (high, low) } else { (low, high) };
    let (top, bottom) = (h as f64 * r.range(0.2, 0.4), h as f64 * r.range(0.6, 0.8));
    let lean = r.range(-0.3, 0.3);
    canvas.draw(2, [0, 0, w, h], |x, y| {
        let at = y + lean * (x - w as f64 / 2.0);
        Some(if at > top && at < bottom { ink as f32 } else { paper as f32 })
    });
    let times = r.below(4) as usize;
    canvas.blur(times);
    let noise = r.pick(&[0.0, 0.0, 2.0]);
    let stride = stride(r, w);
    let bytes = canvas.bytes(r, stride, noise);
    let x = w as f64 * r.range(0.3, 0.7);
    let wide = r.decades(-9.3, -6.0);
    let module = (bottom - top) / 21.0;
    let (y0, y1) = (top + r.range(-1.0, 1.0) * module, bottom + r.range(-1.0, 1.0) * module);
    let slant = r.pick(&[0.0, 0.0, 1.0, 3.0]);
    let (a, b) = (r.range(0.5, 2.0), r.pick(&[1.0, 1.0, 0.5, -1.0]));
    let mut quad = [[x, y0], [x + wide, y0], [x + slant + wide * b, y1], [x + slant, y1]];
    if r.chance(0.2) {
        quad[1][1] += wide * a;
        quad[2][1] += wide * a;
    }
    let turn = r.below(4) as usize;
    let mut job = bare(r, w, h, bytes, stride, [0, 1, 2, 3].map(|i| quad[(i + turn) % 4]));
    job.inverted = inverted;
    job.dim = r.pick(&[6, 7, 8, 9, 12, 21, 33]);
    job.modules = modules(r, job.dim as usize);
    if r.chance(0.4) {
        clustered(r, &mut job);
    }
    job.camera = r.chance(0.2).then(|| {
        let c = camera(r, w as f64, h as f64);
        let lens = if r.chance(0.7) { Lens::BrownConrady([0.0; 5].map(|_: f64| r.range(-1e-3, 1e-3))) } else { Lens::None };
        Camera { rectified: c.source, lens, ..c }
    });
    job
}

/// On each edge a few probes in the middle and a few at the ends that are unfolded, and so lie elsewhere: on a thin
/// label these are the outliers, and what is left does not spread.
fn clustered(r: &mut Rng, job: &mut Job) {
    let dim = r.pick(&[21, 25, 33]);
    let (near, middle) = (2 + r.below(3) as usize, dim / 2);
    let mut m = vec![0; dim * dim];
    for k in 0..dim {
        let inner = k + 1 >= middle && k <= middle + 1;
        let outer = k == near || k == dim - 1 - near;
        for (edge, behind) in [
            (k, dim + k),
            (k * dim + dim - 1, k * dim + dim - 2),
            ((dim - 1) * dim + k, (dim - 2) * dim + k),
            (k * dim, k * dim + 1),
        ] {
            if inner || outer {
                m[edge] = 1;
            }
            if inner {
                m[behind] = 1;
            }
        }
    }
    job.dim = dim as u32;
    job.modules = m;
}

/// A camera whose rectified picture is some billion times smaller, so that a whole label spreads hardly at all.
fn zoom(r: &mut Rng) -> Job {
    let mut s = Style::any(r);
    s.dim = r.pick(&[6, 7, 8, 9, 10, 12, 21]);
    s.contrast = r.pick(&[14.0, 20.0, 30.0, 60.0, 200.0]);
    s.noise = r.pick(&[0.0, 0.0, 0.5]);
    s.tilt = r.range(0.0, 0.6);
    s.rough = r.pick(&[0.0, 0.5, 0.8]);
    zoomed(r, s)
}

/// One of few probes and small weights.
pub fn faint_zoom(r: &mut Rng) -> Job {
    let mut s = Style::any(r);
    s.dim = r.pick(&[6, 7, 8]);
    s.contrast = r.range(13.0, 22.0);
    s.noise = 0.0;
    s.tilt = r.range(0.0, 0.3);
    s.rough = r.pick(&[0.0, 0.2]);
    let mut job = zoomed(r, s);
    job.modules.fill(1);
    job
}

fn zoomed(r: &mut Rng, mut s: Style) -> Job {
    s.module = r.range(3.0, 10.0);
    s.blur = 1 + r.below(3) as usize;
    let module = s.module;
    let bends = r.chance(0.5);
    let mut job = drawn(r, s, |r, w, h| {
        let by = r.decades(-9.4, -8.0) / module;
        let c = [1.0, r.range(0.9, 1.1), w * r.range(0.4, 0.6), h * r.range(0.4, 0.6)];
        let rectified = [c[0] * by, c[1] * by, 0.0, 0.0];
        // The picture plane is measured in pixels here, so that the coefficients are small.
        let mut k = || [1e-6, 1e-12, 1e-6, 1e-6, 1e-18].map(|k: f64| k * r.range(-1.0, 1.0));
        let lens = if bends { Lens::BrownConrady(k()) } else { Lens::None };
        Some(Camera { source: c, rectified, lens })
    });
    if r.chance(0.6) {
        job.modules.fill(1);
    }
    job
}

/// Pictures at the ends of their sizes.
fn limits(r: &mut Rng) -> Job {
    let (w, h) = r.pick(&[(16384usize, 1usize), (1, 16384), (16384, 9), (9, 16384), (400, 40), (1, 1), (2, 2)]);
    let stride = if h <= 40 && r.chance(0.7) { r.pick(&[65535, 65535, w.max(65534), w]) } else { w };
    let mut bytes = r.bytes((h - 1) * stride + w);
    if r.chance(0.5) {
        for b in &mut bytes {
            *b = if *b < 128 { 10 } else { 240 };
        }
    }
    let place = |r: &mut Rng| [r.range(0.0, (w - 1) as f64), r.range(0.0, (h - 1) as f64)];
    let quad = if r.chance(0.5) {
        let c = place(r);
        let half = (w.min(h) as f64 * 0.4).max(0.2);
        posed(r, c, half, 0.5)
    } else {
        [0; 4].map(|_| place(r))
    };
    let mut job = bare(r, w, h, bytes, stride, quad);
    job.dim = r.pick(&[2, 6, 9, 12]);
    job.modules = vec![1; (job.dim * job.dim) as usize];
    job
}

/// A good job with faults of 1 to 6, one or more.
fn refused(r: &mut Rng) -> Job {
    let mut job = match r.below(4) {
        0 => tiny(r),
        1 => small(r),
        2 => stripes(r),
        _ => label(r),
    };
    if r.chance(0.5) {
        job.camera = Some(camera(r, job.width as f64, job.height as f64));
    }
    let faults = 1 + r.below(2);
    for _ in 0..faults {
        match 1 + r.below(6) {
            1 => {
                let v = r.pick(&[0, 16385, 65536, u32::MAX]);
                if r.chance(0.5) {
                    job.width = v;
                } else {
                    job.height = v;
                }
            }
            2 => match r.below(4) {
                0 => job.stride = job.width.wrapping_sub(1),
                1 => job.stride = r.pick(&[65536, u32::MAX, 0]),
                2 => {
                    let short = 1 + r.below(3) as usize;
                    let n = job.bytes.len().saturating_sub(short);
                    job.bytes.truncate(n);
                }
                _ => job.bytes.clear(),
            },
            3 => match r.below(5) {
                0 => job.dim = r.pick(&[0, 1]),
                1 => job.dim = r.pick(&[178, 65536, u32::MAX]),
                2 => {
                    job.modules.pop();
                }
                3 => {
                    let n = job.modules.len();
                    if n > 0 {
                        let at = r.pick(&[0, n - 1, n / 2]);
                        job.modules[at] = r.pick(&[2, 255, 3]);
                    }
                }
                _ => job.modules.push(7),
            },
            4 => {
                let v = r.pick(&[0.0, -0.0, -1.0, f64::NAN, f64::INFINITY, f64::NEG_INFINITY, -5e-324]);
                if r.chance(0.5) {
                    job.sx = v;
                } else {
                    job.sy = v;
                }
            }
            5 => {
                let s = [job.sx, job.sy];
                let (i, j) = (r.below(4) as usize, r.below(2) as usize);
                let v = r.pick(&[f64::NAN, f64::INFINITY, f64::NEG_INFINITY, 1e300, neighbour(1048576.0, 1), -neighbour(1048576.0, 1)]);
                job.corners[i][j] = v * s[j];
                if r.chance(0.2) {
                    // an overflow by the division alone
                    job.sx = 1e-305;
                }
            }
            _ => {
                let mut c = job.camera.unwrap_or_else(|| camera(r, 50.0, 50.0));
                let v = r.pick(&[f64::NAN, f64::INFINITY, f64::NEG_INFINITY]);
                match r.below(4) {
                    0 => c.source[r.below(4) as usize] = v,
                    1 => c.rectified[r.below(4) as usize] = v,
                    2 => {
                        let low = r.pick(&[0.0, -0.0, -1.0, -5e-324]);
                        let which = r.below(2) as usize;
                        if r.chance(0.5) {
                            c.source[which] = low;
                        } else {
                            c.rectified[which] = low;
                        }
                    }
                    _ => {
                        if let Lens::None = c.lens {
                            c.lens = Lens::BrownConrady([0.0; 5]);
                        }
                        c.lens.coefficients_mut()[r.below(5) as usize] = v;
                    }
                }
                job.camera = Some(c);
            }
        }
    }
    job
}

// ---- the benchmark

/// A photograph that a label fills.
pub fn photograph(seed: u64, width: usize, height: usize, dim: usize, lens: Lens) -> Job {
    photograph_of(seed, width, height, dim, lens, height as f64 * 0.38)
}

/// A photograph with a label of so many pixels from its middle to a side: clean enough to be answered, rough enough to be ordinary.
pub fn photograph_of(seed: u64, width: usize, height: usize, dim: usize, lens: Lens, half: f64) -> Job {
    let mut r = Rng::new(seed ^ 0xbe_4c4);
    let modules = modules_like_a_code(&mut r, dim);
    let (w, h) = (width as f64, height as f64);
    // A fisheye has the label in 80 degrees or so, where both ways of its arctangent are gone.
    let camera = match lens {
        Lens::None => None,
        Lens::BrownConrady(_) => Some(0.9),
        Lens::Fisheye(_) => Some(0.35),
    };
    let camera = camera.map(|f| {
        let c = [w * f, w * f, w / 2.0, h / 2.0];
        Camera { source: c, rectified: c, lens }
    });
    let quad = posed(&mut r, [w / 2.0, h / 2.0], half, 0.35);
    let mut canvas = Canvas::new(width, height, 215.0);
    let label = Label { dim, modules: &modules, corners: quad, camera, ink: 35.0, paper: 215.0, quiet: 4.0 };
    label.draw(&mut canvas, 1);
    canvas.blur(1);
    let bytes = canvas.bytes(&mut r, width, 2.0);
    let module = 2.0 * half / dim as f64;
    let corners = rough(&mut r, quad, module, 0.3);
    Job {
        family: "photograph",
        width: width as u32,
        height: height as u32,
        stride: width as u32,
        bytes,
        dim: dim as u32,
        modules,
        sx: 1.0,
        sy: 1.0,
        corners,
        inverted: false,
        camera,
        settings: None,
    }
}

/// The same in the middle of a larger picture. For a job without a camera, whose centre would move too, and with scales of 1.
pub fn framed(job: &Job, width: usize, height: usize) -> Job {
    let (w, h) = (job.width as usize, job.height as usize);
    let (left, top) = ((width - w) / 2, (height - h) / 2);
    let mut bytes = vec![215; width * height];
    for y in 0..h {
        bytes[(top + y) * width + left..][..w].copy_from_slice(&job.bytes[y * job.stride as usize..][..w]);
    }
    Job {
        width: width as u32,
        height: height as u32,
        stride: width as u32,
        bytes,
        corners: job.corners.map(|[x, y]| [x + left as f64, y + top as f64]),
        ..job.clone()
    }
}
