//! Pictures of labels: modules in perspective, through a lens, blurred, with noise.
use crate::job::Camera;
use crate::rng::Rng;

/// The map of the unit square to four corners, as nine numbers by rows: for drawing alone.
pub fn square_to_quad(q: &[[f64; 2]; 4]) -> [f64; 9] {
    let [[x0, y0], [x1, y1], [x2, y2], [x3, y3]] = *q;
    let (sx, sy) = (x0 - x1 + x2 - x3, y0 - y1 + y2 - y3);
    let (dx1, dx2, dy1, dy2) = (x1 - x2, x3 - x2, y1 - y2, y3 - y2);
    let den = dx1 * dy2 - dx2 * dy1;
    let g = (sx * dy2 - dx2 * sy) / den;
    let h = (dx1 * sy - sx * dy1) / den;
    [x1 - x0 + g * x1, x3 - x0 + h * x3, x0, y1 - y0 + g * y1, y3 - y0 + h * y3, y0, g, h, 1.0]
}

/// The inverse, up to a scale.
pub fn adjugate(m: &[f64; 9]) -> [f64; 9] {
    let [a, b, c, d, e, f, g, h, i] = *m;
    [
        e * i - f * h,
        c * h - b * i,
        b * f - c * e,
        f * g - d * i,
        a * i - c * g,
        c * d - a * f,
        d * h - e * g,
        b * g - a * h,
        a * e - b * d,
    ]
}

pub fn apply(m: &[f64; 9], x: f64, y: f64) -> [f64; 2] {
    let w = m[6] * x + m[7] * y + m[8];
    [(m[0] * x + m[1] * y + m[2]) / w, (m[3] * x + m[4] * y + m[5]) / w]
}

/// A picture under way.
pub struct Canvas {
    pub width: usize,
    pub height: usize,
    pub luma: Vec<f32>,
}

impl Canvas {
    pub fn new(width: usize, height: usize, luma: f32) -> Self {
        Canvas { width, height, luma: vec![luma; width * height] }
    }

    /// Draw a function of the place, at `fine` x `fine` points of each pixel, inside a box of pixels.
    pub fn draw(&mut self, fine: usize, area: [usize; 4], f: impl Fn(f64, f64) -> Option<f32>) {
        let [x0, y0, x1, y1] = area;
        for y in y0..y1 {
            for x in x0..x1 {
                let mut sum = 0.0;
                for k in 0..fine * fine {
                    let place = |i: usize| (i as f64 + 0.5) / fine as f64 - 0.5;
                    let (px, py) = (x as f64 + place(k % fine), y as f64 + place(k / fine));
                    sum += f(px, py).unwrap_or(self.luma[y * self.width + x]);
                }
                self.luma[y * self.width + x] = sum / (fine * fine) as f32;
            }
        }
    }

    /// 1 2 1 along both axes.
    pub fn blur(&mut self, times: usize) {
        let (w, h) = (self.width, self.height);
        for _ in 0..times {
            let from = self.luma.clone();
            for y in 0..h {
                for x in 0..w {
                    let at = |i: usize| from[y * w + i];
                    self.luma[y * w + x] = 0.25 * (at(x.saturating_sub(1)) + 2.0 * at(x) + at((x + 1).min(w - 1)));
                }
            }
            let from = self.luma.clone();
            for y in 0..h {
                for x in 0..w {
                    let at = |i: usize| from[i * w + x];
                    self.luma[y * w + x] = 0.25 * (at(y.saturating_sub(1)) + 2.0 * at(y) + at((y + 1).min(h - 1)));
                }
            }
        }
    }

    /// Bytes by rows of `stride`, with noise; the padding holds anything.
    pub fn bytes(&self, r: &mut Rng, stride: usize, noise: f64) -> Vec<u8> {
        let mut out = r.bytes((self.height - 1) * stride + self.width);
        for y in 0..self.height {
            for x in 0..self.width {
                let n = if noise > 0.0 { r.bell() * noise } else { 0.0 };
                out[y * stride + x] = (self.luma[y * self.width + x] as f64 + n).round().clamp(0.0, 255.0) as u8;
            }
        }
        out
    }
}

/// A label to draw.
pub struct Label<'a> {
    pub dim: usize,
    pub modules: &'a [u8],
    /// in rectified pixels
    pub corners: [[f64; 2]; 4],
    pub camera: Option<Camera>,
    pub ink: f32,
    pub paper: f32,
    /// of light modules around it, in modules
    pub quiet: f64,
}

impl Label<'_> {
    pub fn draw(&self, canvas: &mut Canvas, fine: usize) {
        let back = adjugate(&square_to_quad(&self.corners));
        let n = self.dim as f64;
        let area = self.area(canvas);
        canvas.draw(fine, area, |x, y| {
            let [x, y] = self.camera.map_or([x, y], |c| c.unproject([x, y]));
            let [u, v] = apply(&back, x, y);
            let (u, v) = (u * n, v * n);
            let inside = |t: f64| t >= -self.quiet && t < n + self.quiet;
            if !inside(u) || !inside(v) {
                return None;
            }
            if u < 0.0 || v < 0.0 || u >= n || v >= n {
                return Some(self.paper);
            }
            let dark = self.modules[v as usize * self.dim + u as usize] == 1;
            Some(if dark { self.ink } else { self.paper })
        });
    }

    /// The pixels that the label and its quiet zone can reach.
    fn area(&self, canvas: &Canvas) -> [usize; 4] {
        let m = square_to_quad(&self.corners);
        let q = self.quiet / self.dim as f64;
        let (mut x0, mut y0, mut x1, mut y1) = (f64::MAX, f64::MAX, f64::MIN, f64::MIN);
        for k in 0..=16 {
            let t = -q + (1.0 + 2.0 * q) * k as f64 / 16.0;
            for (u, v) in [(t, -q), (t, 1.0 + q), (-q, t), (1.0 + q, t)] {
                let p = apply(&m, u, v);
                let [x, y] = self.camera.map_or(p, |c| c.project(p));
                (x0, y0) = (x0.min(x), y0.min(y));
                (x1, y1) = (x1.max(x), y1.max(y));
            }
        }
        let low = |v: f64, n: usize| (v - 2.0).clamp(0.0, n as f64) as usize;
        let high = |v: f64, n: usize| (v + 3.0).clamp(0.0, n as f64) as usize;
        [low(x0, canvas.width), low(y0, canvas.height), high(x1, canvas.width), high(y1, canvas.height)]
    }
}

/// The corners of a square of side 2, turned in space, seen from a distance, at a place.
pub fn posed(r: &mut Rng, centre: [f64; 2], half: f64, tilt: f64) -> [[f64; 2]; 4] {
    let (spin, axis, lean) = (r.range(0.0, 6.3), r.range(0.0, 6.3), r.range(-tilt, tilt));
    let distance = r.range(2.5, 8.0);
    [[-1.0, -1.0], [1.0, -1.0], [1.0, 1.0], [-1.0, 1.0]].map(|[x, y]: [f64; 2]| {
        let (x, y) = (x * spin.cos() - y * spin.sin(), x * spin.sin() + y * spin.cos());
        // lean about a line in the plane
        let across = -x * axis.sin() + y * axis.cos();
        let along = x * axis.cos() + y * axis.sin();
        let (a, depth) = (across * lean.cos(), across * lean.sin());
        let (x, y) = (along * axis.cos() - a * axis.sin(), along * axis.sin() + a * axis.cos());
        let s = half * distance / (distance + depth);
        [centre[0] + x * s, centre[1] + y * s]
    })
}
