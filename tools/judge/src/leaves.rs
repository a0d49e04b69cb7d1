//! The leaf calls, on random and special floats.
use crate::families;
use crate::input::watched::calibration;
use crate::job::{Camera, Lens};
use crate::oracle::same_floats;
use crate::port::{self, Aim, Border, Photograph};
use crate::rng::{neighbour, Rng};
use crate::rules;
use crate::settings;
use watched::refine::access::geometry::{
    arctan, intersect_lines, numbers, of_numbers, sample_bilinear, BorderMode, Line2, PerspectiveTransform,
};
use watched::refine::access::image::LumaView;
use std::sync::OnceLock;
use watched::refine::access::{self, Input};

/// A call's name, its input in words, and both ends. `port` is `None` where the archive lacks the call.
struct Case {
    name: &'static str,
    input: String,
    rust: (u32, Vec<f64>),
    port: Option<(u32, Vec<f64>)>,
}

fn found<const N: usize>(number: u32, value: Option<[f64; N]>) -> (u32, Vec<f64>) {
    match value {
        Some(v) => (0, v.to_vec()),
        None => (number, vec![0.0; N]),
    }
}

fn refused(number: u32, zeros: usize) -> (u32, Vec<f64>) {
    (number, vec![0.0; zeros])
}

fn got<const N: usize>(leaf: port::Leaf<N>) -> Option<(u32, Vec<f64>)> {
    leaf.map(|(n, v)| (n, v.to_vec()))
}

// ---- inputs

/// Intrinsics that change nothing.
const PLANE: [f64; 4] = [1.0, 1.0, 0.0, 0.0];

/// A coordinate in and around a picture of so many pixels.
fn coordinate(r: &mut Rng, n: u32) -> f64 {
    match r.below(8) {
        0 => r.float(),
        1 => neighbour(r.int(-1, n.min(20000) as i64) as f64, r.int(-1, 1)),
        2 => neighbour(n.min(20000) as f64 - 1.0, r.int(-1, 1)),
        3 => r.pick(&[0.0, -0.0, 5e-324, -5e-324]),
        _ => r.range(-0.2, 1.2) * n.min(20000) as f64,
    }
}

fn camera(r: &mut Rng) -> Camera {
    let mut c = families::camera(r, 100.0, 80.0);
    for k in 0..4 {
        if r.chance(0.05) {
            c.source[k] = r.float();
        }
        if r.chance(0.05) {
            c.rectified[k] = r.float();
        }
    }
    for v in c.lens.coefficients_mut() {
        if r.chance(0.05) {
            *v = r.float();
        }
    }
    c
}

/// Distances whose arctangent tells a division by 3 from a product with the inverse: one in some hundred thousand does, so they are
/// sought once.
fn told_by_thirds() -> &'static [f64] {
    static FOUND: OnceLock<Vec<f64>> = OnceLock::new();
    FOUND.get_or_init(|| {
        let mut r = Rng::new(3);
        let told = |q: &f64| q - q * q * q / 3.0 != q - q * q * q * (1.0 / 3.0);
        std::iter::repeat_with(|| r.range(1.0 / 512.0, 1.0 / 256.0)).filter(told).take(16).collect()
    })
}

/// A distance from the axis: 0, and what is 0 by underflow of its square; a place of the table or beside it, on both sides of 1; 1;
/// where squares overflow; and others.
fn distance(r: &mut Rng) -> f64 {
    let place = r.int(1, 256) as f64;
    match r.below(11) {
        10 => r.pick(told_by_thirds()),
        0 => r.pick(&[0.0, 5e-324, 1e-170, 1.5e-162, 2.3e-162, 1e-154]),
        1 | 2 => neighbour(place / 256.0, r.int(-2, 2)),
        3 => neighbour(256.0 / place, r.int(-2, 2)),
        4 => neighbour(1.0, r.int(-3, 3)) * r.pick(&[1.0, 1.0, 0.9995, 1.0005]),
        5 => r.pick(&[1e100, 1e154, 1.34e154, 1.35e154, 1e200, f64::MAX]),
        6 => r.decades(-3.0, 3.0),
        7 => r.float(),
        _ => r.range(0.0, 3.0),
    }
}

/// A fisheye's coefficients: zeros, some, wild ones, and those whose polynomial of this angle is 0 or beside it, and below 0.
fn coefficients(r: &mut Rng, angle: f64) -> [f64; 4] {
    let t2 = angle * angle;
    match r.below(8) {
        0 => [0.0; 4],
        1 => [neighbour(-1.0 / t2, r.int(-1, 1)), 0.0, 0.0, 0.0],
        2 => [0.0, 0.0, 0.0, -1.0 / (t2 * t2 * t2 * t2)],
        3 => [-r.decades(-1.0, 2.0), 0.0, r.range(-1.0, 1.0), r.range(-1.0, 1.0)],
        4 => [0; 4].map(|_| r.float()),
        _ => [0; 4].map(|_| r.range(-0.3, 0.3)),
    }
}

fn quad(r: &mut Rng) -> [[f64; 2]; 4] {
    match r.below(4) {
        0 => [0; 4].map(|_| [r.float(), r.float()]),
        1 => [0; 4].map(|_| [r.int(-3, 3) as f64, r.int(-3, 3) as f64]),
        2 => {
            // a parallelogram, as near as floats are
            let (a, d, e) = ([r.float(), r.float()], [r.range(-9.0, 9.0), r.range(-9.0, 9.0)], [r.int(-3, 3) as f64, r.float()]);
            let at = |u: f64, v: f64| [a[0] + u * d[0] + v * e[0], a[1] + u * d[1] + v * e[1]];
            [at(0.0, 0.0), at(1.0, 0.0), at(1.0, 1.0), at(0.0, 1.0)]
        }
        _ => [0; 4].map(|_| [r.range(0.0, 100.0), r.range(0.0, 100.0)]),
    }
}

fn nine(r: &mut Rng) -> [f64; 9] {
    if r.chance(0.3) {
        return [0; 9].map(|_| r.float());
    }
    match PerspectiveTransform::square_to_quad(quad(r)) {
        Some(m) => numbers(&m),
        None => [0; 9].map(|_| r.range(-10.0, 10.0)),
    }
}

fn line(r: &mut Rng) -> [f64; 4] {
    if r.chance(0.3) {
        return [0; 4].map(|_| r.float());
    }
    let t = r.range(0.0, 6.3);
    let t = if r.chance(0.2) { t * 1e-9 } else { t };
    [r.range(-50.0, 50.0), r.range(-50.0, 50.0), t.cos(), t.sin()]
}

// ---- calls

fn bilinear(r: &mut Rng) -> Case {
    let (mut width, mut height) = (r.int(1, 9) as u32, r.int(1, 9) as u32);
    let mut stride = width + r.below(3) as u32;
    let mut bytes = r.bytes((height as usize - 1) * stride as usize + width as usize);
    if r.chance(0.03) {
        match r.below(5) {
            0 => width = r.pick(&[0, 16385, u32::MAX]),
            1 => height = r.pick(&[0, 16385, u32::MAX]),
            2 => stride = r.pick(&[0, width - 1, 65536, u32::MAX]),
            3 => {
                bytes.pop();
            }
            _ => bytes.clear(),
        }
    }
    let (x, y) = (coordinate(r, width), coordinate(r, height));
    let (mode, constant) = (r.below(3) as u32, r.below(256) as u8);
    let border = [BorderMode::Reject, BorderMode::Clamp, BorderMode::Constant(constant)][mode as usize];
    let number = rules::photograph(bytes.len(), width, height, stride);
    let rust = if number != 0 {
        refused(number, 1)
    } else {
        let view = LumaView::new(&bytes, width as usize, height as usize, stride as usize).expect("1 and 2 passed");
        found(17, sample_bilinear(view, x, y, border).map(|v| [v]))
    };
    let photo = Photograph { bytes: &bytes, width, height, stride };
    let as_port = [Border::Reject, Border::Clamp, Border::Constant(constant)][mode as usize];
    Case {
        name: "sample_bilinear",
        input: format!("{width} x {height}, stride {stride}, {bytes:?} at {x:?}, {y:?}, {border:?}"),
        rust,
        port: got(port::sample_bilinear(photo, x, y, as_port)),
    }
}

fn to_source(r: &mut Rng) -> Case {
    let c = camera(r);
    let (x, y) = (coordinate(r, 100), coordinate(r, 80));
    let rust = match rules::camera(&c) {
        0 => found(20, calibration(&c, 100, 80).expect("6 passed").rectified_to_source([x, y])),
        n => refused(n, 2),
    };
    Case {
        name: "rectified_to_source",
        input: format!("{c:?} at {x:?}, {y:?}"),
        rust,
        port: got(port::rectified_to_source(&c, x, y)),
    }
}

/// A place through a fisheye, mostly with intrinsics that leave the picture plane as it is.
fn through_fisheye(r: &mut Rng) -> Case {
    let d = distance(r);
    let turn = r.range(0.0, 6.3);
    let [x, y] = r.pick(&[[d, 0.0], [0.0, d], [-d, -0.0], [d * turn.cos(), d * turn.sin()]]);
    let k = coefficients(r, arctan((x * x + y * y).sqrt()));
    let mut c = if r.chance(0.8) { Camera { source: PLANE, rectified: PLANE, lens: Lens::None } } else { camera(r) };
    c.lens = Lens::Fisheye(k);
    let rust = match rules::camera(&c) {
        0 => found(20, calibration(&c, 100, 80).expect("6 passed").rectified_to_source([x, y])),
        n => refused(n, 2),
    };
    Case {
        name: "rectified_to_source, fisheye",
        input: format!("{c:?} at {x:?}, {y:?}"),
        rust,
        port: got(port::rectified_to_source(&c, x, y)),
    }
}

fn square(r: &mut Rng) -> Case {
    let q = quad(r);
    Case {
        name: "square_to_quad",
        input: format!("{q:?}"),
        rust: found(8, PerspectiveTransform::square_to_quad(q).map(|m| numbers(&m))),
        port: got(port::square_to_quad(&q)),
    }
}

fn quads(r: &mut Rng) -> Case {
    let (a, b) = (quad(r), quad(r));
    Case {
        name: "quad_to_quad",
        input: format!("{a:?} to {b:?}"),
        rust: found(8, PerspectiveTransform::quad_to_quad(a, b).map(|m| numbers(&m))),
        port: got(port::quad_to_quad(&a, &b)),
    }
}

fn map(r: &mut Rng) -> Case {
    let (m, u, v) = (nine(r), r.float(), r.float());
    Case {
        name: "map",
        input: format!("{m:?} of {u:?}, {v:?}"),
        rust: (0, of_numbers(m).map(u, v).to_vec()),
        port: got(port::map(&m, u, v)),
    }
}

fn scaled(r: &mut Rng) -> Case {
    let (sx, sy) = (r.float(), r.float());
    Case {
        name: "scaled",
        input: format!("{sx:?}, {sy:?}"),
        rust: (0, numbers(&PerspectiveTransform::scaled(sx, sy)).to_vec()),
        port: got(port::scaled(sx, sy)),
    }
}

fn inverse(r: &mut Rng) -> Case {
    let m = nine(r);
    Case {
        name: "inverse",
        input: format!("{m:?}"),
        rust: (0, numbers(&of_numbers(m).inverse()).to_vec()),
        port: got(port::inverse(&m)),
    }
}

fn then(r: &mut Rng) -> Case {
    let (a, b) = (nine(r), nine(r));
    Case {
        name: "then",
        input: format!("{a:?} then {b:?}"),
        rust: (0, numbers(&of_numbers(a).then(&of_numbers(b))).to_vec()),
        port: got(port::then(&a, &b)),
    }
}

fn fit(r: &mut Rng) -> Case {
    let n = if r.chance(0.03) { r.below(3) } else { r.below(20) + 2 } as usize;
    let kind = r.below(8);
    let spread = r.decades(-10.0, 2.0);
    let value = |r: &mut Rng| match kind {
        0 => r.float(),
        1 => r.range(-1.0, 1.0) * 1e200,
        2 => r.int(-2, 2) as f64,
        3 => r.range(-1.0, 1.0) * 1e154,
        _ => 20.0 + r.range(-1.0, 1.0) * spread,
    };
    let weight = |r: &mut Rng| match r.below(40) {
        0 => 0.0,
        1 if kind == 4 => r.range(-20.0, 0.0),
        2 if kind == 5 => r.float(),
        _ => r.range(0.0, 250.0),
    };
    let mut xs: Vec<f64> = (0..n).map(|_| value(r)).collect();
    let mut ys: Vec<f64> = (0..n).map(|_| value(r)).collect();
    let mut ws: Vec<f64> = (0..n).map(|_| weight(r)).collect();
    if r.chance(0.1) {
        // along an axis
        let v = value(r);
        r.pick(&[0, 1]).eq(&0).then(|| xs.fill(v)).unwrap_or_else(|| ys.fill(v));
    }
    if r.chance(0.02) {
        // lists of unequal lengths
        match r.below(4) {
            0 => ws.truncate(n / 2),
            1 => ws.push(1.0),
            2 => ys.truncate(n / 2),
            _ => xs.truncate(n / 2),
        }
    }
    let rust = if xs.len() < 2 || ys.len() < 2 {
        refused(13, 4)
    } else if xs.len() != ys.len() {
        // The Rust has one list of points: lengths that differ are 14 by the port's own reading.
        refused(14, 4)
    } else {
        let points: Vec<[f64; 2]> = xs.iter().zip(&ys).map(|(x, y)| [*x, *y]).collect();
        match access::fit_line(&points, &ws) {
            Ok(l) => (0, vec![l.centroid[0], l.centroid[1], l.dir[0], l.dir[1]]),
            Err(number) => refused(number, 4),
        }
    };
    Case {
        name: "fit_line_tls_weighted",
        input: format!("x {xs:?}, y {ys:?}, weights {ws:?}"),
        rust,
        port: got(port::fit_line(&xs, &ys, &ws)),
    }
}

/// Points whose first line lies on the x axis, exactly: each with its mirror images in both axes, so that the residuals are their
/// |y|. Most |y| are equal; some are 0, some twice that, which is twice the median, and some the outlier floor itself or beside it.
fn mirrored(r: &mut Rng, module_px: f64) -> Vec<[f64; 2]> {
    let unit = r.pick(&[1.0, 0.5, 3.0, 0.1]);
    let floor = 0.15 * module_px;
    let mut points = Vec::new();
    let most = if r.chance(0.1) { 88 } else { 15 };
    for k in 0..r.int(1, most) {
        let x = 8.0 * (k + 2) as f64;
        let y = match r.below(8) {
            0 => 0.0,
            1 => 2.0 * unit,
            2 => neighbour(2.0 * unit, r.int(-1, 1)),
            3 => floor,
            4 => neighbour(floor, r.int(-1, 1)),
            _ => unit,
        };
        points.extend([[x, y], [-x, y], [x, -y], [-x, -y]]);
    }
    if r.chance(0.5) {
        points.push([0.0, 0.0]);
    }
    points
}

fn edge(r: &mut Rng) -> Case {
    let module_px = if r.chance(0.1) { r.float() } else { r.pick(&[1.0, 4.0, 20.0, 0.0]) * r.range(0.5, 1.5) };
    let kind = r.below(8);
    let points: Vec<[f64; 2]> = if kind < 4 {
        mirrored(r, module_px)
    } else {
        // As many as document 02 lets an edge have.
        let n = if r.chance(0.2) { r.below(355) } else { r.below(65) };
        let (slope, noise) = (r.range(-2.0, 2.0), r.decades(-12.0, 1.0));
        let mut value = |x: f64| match kind {
            4 => slope * x,
            5 => r.int(-2, 2) as f64,
            6 if r.chance(0.02) => r.float(),
            _ => slope * x + r.range(-1.0, 1.0) * noise + if r.chance(0.1) { 5.0 } else { 0.0 },
        };
        (0..n).map(|i| [i as f64, value(i as f64)]).collect()
    };
    let even = r.chance(0.7);
    let weights: Vec<f64> = points.iter().map(|_| if even || kind < 4 { 16.0 } else { r.range(0.0, 250.0) }).collect();
    let (xs, ys): (Vec<f64>, Vec<f64>) = points.iter().map(|p| (p[0], p[1])).unzip();
    let probed = r.below(360) as u32;
    Case {
        name: "fit_edge",
        input: format!("x {xs:?}, y {ys:?}, weights {weights:?}, probed {probed}, module {module_px:?}"),
        rust: match access::fit_edge(&points, &weights, probed as usize, module_px) {
            Ok(values) => (0, values.to_vec()),
            Err(number) => refused(number, 8),
        },
        port: got(port::fit_edge(&xs, &ys, &weights, probed, module_px)),
    }
}

fn cross(r: &mut Rng) -> Case {
    let (a, b) = (line(r), line(r));
    let of = |l: [f64; 4]| Line2 { centroid: [l[0], l[1]], dir: [l[2], l[3]] };
    Case {
        name: "intersect_lines",
        input: format!("{a:?} with {b:?}"),
        rust: found(18, intersect_lines(&of(a), &of(b))),
        port: got(port::intersect_lines(&a, &b)),
    }
}

/// What the calls for one edge point are handed.
struct Profile {
    width: u32,
    height: u32,
    stride: u32,
    bytes: Vec<u8>,
    camera: Option<Camera>,
    aim: Aim,
}

/// An edge across the picture, and a profile over it that hardly leaves the picture.
fn draw_edge(r: &mut Rng, p: &mut Profile, wild: bool) {
    let (low, high) = (r.range(0.0, 120.0), r.range(124.0, 255.0));
    let (at, wide) = (r.range(0.3, 0.7) * p.width as f64, r.range(0.2, 3.0));
    let outward = if r.chance(0.5) { 1.0 } else { -1.0 };
    let up = if p.aim.inverted { -outward } else { outward };
    for (i, b) in p.bytes.iter_mut().enumerate() {
        let t = up * ((i as u32 % p.stride) as f64 - at) / wide;
        *b = (low + (high - low) / (1.0 + (-t).exp())) as u8;
    }
    if !wild {
        p.aim.step = r.range(0.2, 2.0) * wide;
        p.aim.coarse = [at + r.range(-1.2, 1.2) * p.aim.step, r.range(0.2, 0.8) * p.height as f64];
        let lean = r.pick(&[0.0, 0.0, 0.1, -0.3]);
        p.aim.normal = [outward * f64::cos(lean), f64::sin(lean)];
    }
}

/// A camera, mostly one that sees such a picture nearly as it is.
fn camera_on(r: &mut Rng, width: f64, height: f64) -> Camera {
    let mut c = camera(r);
    if r.chance(0.3) {
        c.lens = Lens::Fisheye([0; 4].map(|_| r.range(-0.3, 0.3)));
    }
    let near = [width, width, width / 2.0, height / 2.0];
    let source = if r.chance(0.8) { near } else { c.source };
    let rectified = if r.chance(0.8) { source.map(|v| v * r.range(0.98, 1.02)) } else { c.rectified };
    Camera { source, rectified, ..c }
}

fn profile(r: &mut Rng) -> Profile {
    let (width, height) = (r.int(1, 40) as u32, r.int(1, 40) as u32);
    let stride = width + r.below(3) as u32;
    let bytes = r.bytes((height as usize - 1) * stride as usize + width as usize);
    let inverted = r.chance(0.5);
    let (turn, wild) = (r.range(0.0, 6.3), r.chance(0.1));
    let aim = Aim {
        coarse: if wild { [r.float(), r.float()] } else { [coordinate(r, width), coordinate(r, height)] },
        normal: if wild && r.chance(0.5) { [r.float(), r.float()] } else { [turn.cos(), turn.sin()] },
        step: if wild { r.float() } else { r.decades(-1.0, 0.8) },
        inverted,
        inward_differs: r.chance(0.5),
    };
    let mut p = Profile { width, height, stride, bytes, camera: None, aim };
    if r.chance(0.8) {
        draw_edge(r, &mut p, wild);
    }
    if r.chance(0.02) {
        p.stride = r.pick(&[0, 65536]);
    }
    if r.chance(0.02) {
        p.bytes.pop();
    }
    p.camera = r.chance(0.4).then(|| camera_on(r, width as f64, height as f64));
    if r.chance(0.01) {
        let size = if r.chance(0.5) { &mut p.width } else { &mut p.height };
        *size = r.pick(&[0, 16385, u32::MAX]);
    }
    p
}

impl Profile {
    fn photograph(&self) -> Photograph<'_> {
        Photograph { bytes: &self.bytes, width: self.width, height: self.height, stride: self.stride }
    }

    /// 1, 2 and 6; 0 where none refuses.
    fn entry(&self) -> u32 {
        match rules::photograph(self.bytes.len(), self.width, self.height, self.stride) {
            0 => self.camera.as_ref().map_or(0, rules::camera),
            number => number,
        }
    }

    /// What the Rust finds, where no check refuses.
    fn rust(&self) -> (u32, Vec<f64>) {
        let (width, height) = (self.width as usize, self.height as usize);
        let view = LumaView::new(&self.bytes, width, height, self.stride as usize).expect("1 and 2 passed");
        let calibrated = self.camera.as_ref().map(|c| calibration(c, self.width, self.height).expect("6 passed"));
        let bits = access::grid(2, &[0; 4]);
        let aim = &self.aim;
        let camera = calibrated.as_ref();
        let input = Input { view, camera, sx: 1.0, sy: 1.0, corners: [[0.0; 2]; 4], bits: &bits, inverted: aim.inverted };
        let point = input.localize(aim.coarse, aim.normal, aim.step, aim.inward_differs);
        found(19, point.map(|(p, weight)| [p[0], p[1], weight]))
    }

    fn words(&self) -> String {
        let Profile { width, height, stride, bytes, camera, aim } = self;
        format!(
            "{width} x {height}, stride {stride}, {bytes:?}, {camera:?}, from {:?} along {:?}, step {:?}, inverted {}, inward differs {}",
            aim.coarse, aim.normal, aim.step, aim.inverted, aim.inward_differs
        )
    }
}

fn localize(r: &mut Rng) -> Case {
    let p = profile(r);
    Case {
        name: if p.camera.is_some() { "localize_edge_point, camera" } else { "localize_edge_point" },
        input: p.words(),
        rust: match p.entry() {
            0 => p.rust(),
            number => refused(number, 3),
        },
        port: got(port::localize(p.photograph(), p.camera.as_ref(), &p.aim)),
    }
}

/// The same under settings: 25 stands behind 6 and before 19.
fn localize_with(r: &mut Rng) -> Case {
    let p = profile(r);
    let mut list = settings::any(r, 21);
    if list.len() > 8 && r.chance(0.5) {
        // The contrast floor alone counts.
        let most = r.pick(&[30, 120, 255]);
        list[5] = r.int(1, most) as f64;
    }
    let number = match p.entry() {
        0 => rules::settings(&list),
        number => number,
    };
    Case {
        name: if p.camera.is_some() { "localize_edge_point_with, camera" } else { "localize_edge_point_with" },
        input: format!("{}, settings {list:?}", p.words()),
        rust: match number {
            0 => access::settings::under(settings::of_list(&list), || p.rust()),
            number => refused(number, 3),
        },
        port: got(port::localize_with(p.photograph(), p.camera.as_ref(), &p.aim, &list)),
    }
}

/// The root, held against the machine's.
fn root(r: &mut Rng) -> Case {
    let x = match r.below(4) {
        0 => f64::from_bits(r.next() >> 1),
        1 => {
            // beside a square, where a wrong rounding shows
            let v = r.range(1.0, 2.0);
            neighbour(v * v, r.int(-1, 1))
        }
        2 => f64::from_bits(r.below(1 << 52)),
        _ => r.float(),
    };
    Case {
        name: "sqrt",
        input: format!("{x:?} ({:016x})", x.to_bits()),
        rust: (0, vec![x.sqrt()]),
        port: got(port::sqrt(x)),
    }
}

/// A smoothing call's number and the heights that it left; of a refusal what it changed, which is
/// zeros.
fn left(number: u32, before: &[u16], after: &[u16]) -> (u32, Vec<f64>) {
    let kept = |i: usize| if number == 0 { 0.0 } else { f64::from(before[i]) };
    (number, after.iter().enumerate().map(|(i, &height)| f64::from(height) - kept(i)).collect())
}

/// Both smoothing calls, held against document 02's words, since the original has none.
fn smooth(r: &mut Rng) -> Case {
    let n = if r.chance(0.1) { r.below(300) } else { r.below(45) } as usize;
    let most = r.pick(&[2, 300, 65536]);
    let scan: Vec<u16> = (0..n).map(|_| if r.chance(0.1) { u16::MAX } else { r.below(most) as u16 }).collect();
    let wrong = r.pick(&[0, 1, 2, 4, 16, 30, 32, 33, 35, 65539, u32::MAX]);
    let window = if r.chance(0.9) { 2 * r.below(15) as u32 + 3 } else { wrong };
    let over = r.chance(0.5);
    let room = if r.chance(0.1) { r.below(n as u64 + 1) } else { n as u64 + r.below(4) };
    let before = if over { scan.clone() } else { (0..room as u16).map(|i| 40000 + i).collect() };
    let (mut expected, mut found) = (before.clone(), before.clone());
    let number = rules::smooth(&scan, window, &mut expected);
    let port = if over { port::smooth_over(&mut found, window) } else { port::smooth_to(&scan, window, &mut found) };
    Case {
        name: if over { "smooth_over" } else { "smooth_to" },
        input: format!("{scan:?}, window {window}, room {}", before.len()),
        rust: left(number, &before, &expected),
        port: port.map(|number| left(number, &before, &found)),
    }
}

/// A result card, mostly of the form whose counts have so many bytes, in order and of small counts.
fn result_card(r: &mut Rng, wide: usize) -> Vec<u8> {
    let wide = if r.chance(0.05) { 3 - wide } else { wide };
    let mut card = [&[16, 64, 0], &r.bytes(64)[..], &[if wide == 1 { 17 } else { 19 }, 12 * wide as u8 + 4, 0]].concat();
    for _ in 0..4 {
        for _ in 0..3 {
            card.extend(&[r.below(256) as u8, if r.chance(0.01) { 1 } else { 0 }][..wide]);
        }
        card.push(r.below(2) as u8);
    }
    card.extend([18, 4, 0]);
    card.extend((0..4).map(|_| r.below(2) as u8));
    match r.below(6) {
        0 => card.truncate(r.below(card.len() as u64 + 1) as usize),
        1 => card.push(r.below(256) as u8),
        2 => {
            let at = r.below(card.len() as u64) as usize;
            card[at] = r.pick(&[0, 1, 2, 16, 17, 18, 19, 255]);
        }
        _ => {}
    }
    card
}

/// Both converters of result cards, held against document 02's words.
fn convert(r: &mut Rng) -> Case {
    let wide = if r.chance(0.5) { 1 } else { 2 };
    let card = result_card(r, wide);
    let room = if r.chance(0.2) { r.below(110) } else { 93 + r.below(20) } as usize;
    let before: Vec<u8> = (0..room as u8).map(|i| 100 + i).collect();
    let (mut expected, mut found) = (before.clone(), before.clone());
    let number = rules::convert(&card, wide, &mut expected);
    let port = if wide == 1 { port::widen_result_card(&card, &mut found) } else { port::narrow_result_card(&card, &mut found) };
    let values = |bytes: &[u8]| bytes.iter().map(|&b| f64::from(b)).collect::<Vec<_>>();
    let changed = |number: u32, after: &[u8]| (number, if number != 0 && after == before { vec![] } else { values(after) });
    Case {
        name: if wide == 1 { "widen_result_card" } else { "narrow_result_card" },
        input: format!("{card:?}, room {room}"),
        rust: changed(number, &expected),
        port: port.map(|number| changed(number, &found)),
    }
}

type Leaf = (u64, fn(&mut Rng) -> Case);

/// How often, in so many in all.
const LEAVES: &[Leaf] = &[
    (20, bilinear),
    (12, to_source),
    (20, through_fisheye),
    (10, square),
    (6, quads),
    (6, map),
    (2, scaled),
    (6, inverse),
    (6, then),
    (12, fit),
    (12, edge),
    (8, cross),
    (10, localize),
    (10, localize_with),
    (6, root),
    (8, smooth),
    (8, convert),
];

/// Whether all agreed.
pub fn run(first: u64, count: u64) -> bool {
    let mut differed = 0;
    let mut tally = std::collections::BTreeMap::<(&str, u32), u64>::new();
    let mut missing = std::collections::BTreeSet::new();
    for seed in first..first + count {
        let mut r = Rng::new(seed ^ 0x1eaf_0000_0000_0000);
        let mut k = r.below(LEAVES.iter().map(|l| l.0).sum());
        let leaf = LEAVES
            .iter()
            .find(|l| {
                let here = k < l.0;
                k = k.wrapping_sub(l.0);
                here
            })
            .expect("k is below the sum");
        let case = leaf.1(&mut r);
        let Some((number, values)) = &case.port else {
            missing.insert(case.name);
            continue;
        };
        *tally.entry((case.name, case.rust.0)).or_default() += 1;
        let zeros = *number == 0 || values.iter().all(|v| v.to_bits() == 0);
        if *number != case.rust.0 || !same_floats(values, &case.rust.1) || !zeros {
            differed += 1;
            if differed == 1 {
                println!("seed {seed} differs: {} of {}\n  Rust: {:?}\n  port: {:?}", case.name, case.input, case.rust, case.port);
            }
        }
    }
    let mut by_name = std::collections::BTreeMap::<&str, Vec<String>>::new();
    for ((name, number), n) in &tally {
        by_name.entry(name).or_default().push(format!("{number}: {n}"));
    }
    for (name, numbers) in &by_name {
        println!("{name:32} {}", numbers.join(", "));
    }
    for name in missing {
        println!("{name:32} not in the archive");
    }
    println!("calls {}; differed {differed}", tally.values().sum::<u64>());
    differed == 0
}
