//! Families that ask the Rust where a job leads, and move it until its second round ends as wanted.
use crate::draw::Canvas;
use crate::families;
use crate::job::{Camera, Job, Lens};
use crate::oracle::{self, Outcome};
use crate::rng::Rng;
use watched::refine::access::RoundEnd;

/// How the rounds of a job end, and what each gives; none where an entry check refuses.
fn rounds(job: &Job) -> Vec<(RoundEnd, Outcome)> {
    if crate::rules::entry(job) != 0 {
        return Vec::new();
    }
    oracle::with_input(job, |input| input.rounds())
}

/// 10 in the second round, through a camera whose rectified picture shrinks until the edges' points do not spread.
/// The first round's corners lie further out, so that its points spread just enough.
pub fn shrunk(r: &mut Rng) -> Job {
    let mut start = families::faint_zoom(r);
    let mean = [0, 1].map(|k| start.corners.iter().map(|c| c[k]).sum::<f64>() / 4.0);
    let by = 1.0 + r.range(0.5, 1.4) / start.dim as f64;
    start.corners = start.corners.map(|c| [0, 1].map(|k| mean[k] + (c[k] - mean[k]) * by));
    // The rectified principal point is 0, so that this is a scaling of the rectified picture alone.
    let scaled = |by: f64| Job {
        corners: start.corners.map(|p| p.map(|v| v * by)),
        camera: start.camera.map(|c| Camera { rectified: c.rectified.map(|v| v * by), ..c }),
        ..start.clone()
    };
    let mut by = 4.0;
    let mut less = 0.95;
    for _ in 0..120 {
        let ends = rounds(&scaled(by * less));
        match ends.last() {
            Some((end, _)) if end.number == 10 && ends.len() == 2 => return scaled(by * less),
            // The first round does not spread either: a step back, and smaller ones.
            Some((end, _)) if end.number == 10 && less < 0.999 => less = less.sqrt(),
            _ => by *= less,
        }
    }
    scaled(by)
}

/// Where the first round takes the right corners of a job whose left ones are at z, less z; none where it is
/// another kind of end.
fn gap(job: &mut Job, z: [f64; 4]) -> Option<[f64; 4]> {
    job.corners[0] = [z[0], z[1]];
    job.corners[3] = [z[2], z[3]];
    let (_, first) = rounds(job).first().copied()?;
    if first.number != 0 || first.refined != [false, true, true, false] {
        return None;
    }
    let c = first.corners;
    Some([c[1][0] - z[0], c[1][1] - z[1], c[2][0] - z[2], c[2][1] - z[3]])
}

/// Put the left corners where the first round takes the right ones: Newton's steps, by differences.
fn settle(job: &mut Job) -> bool {
    let mut z = [job.corners[0][0], job.corners[0][1], job.corners[3][0], job.corners[3][1]];
    for _ in 0..40 {
        let Some(g) = gap(job, z) else { return false };
        if g.iter().all(|v| v.abs() < 1e-13) {
            return true;
        }
        let mut m = [[0.0; 5]; 4];
        for k in 0..4 {
            const STEP: f64 = 1e-5;
            let mut moved = z;
            moved[k] += STEP;
            let Some(h) = gap(job, moved) else { return false };
            for i in 0..4 {
                m[i][k] = (h[i] - g[i]) / STEP;
            }
        }
        for i in 0..4 {
            m[i][4] = -g[i];
        }
        let Some(d) = solve(m) else { return false };
        let far = d.iter().fold(0.0, |a: f64, v| a.max(v.abs()));
        let by = if far > 0.5 { 0.5 / far } else { 1.0 };
        for i in 0..4 {
            z[i] += d[i] * by;
        }
    }
    gap(job, z).is_some_and(|g| g.iter().all(|v| v.abs() < 1e-11))
}

/// Four equations by elimination.
fn solve(mut m: [[f64; 5]; 4]) -> Option<[f64; 4]> {
    for k in 0..4 {
        let p = (k..4).max_by(|&a, &b| m[a][k].abs().total_cmp(&m[b][k].abs()))?;
        m.swap(k, p);
        if m[k][k] == 0.0 || !m[k][k].is_finite() {
            return None;
        }
        for i in (0..4).filter(|&i| i != k) {
            let by = m[i][k] / m[k][k];
            for j in k..5 {
                m[i][j] -= by * m[k][j];
            }
        }
    }
    Some([0, 1, 2, 3].map(|i| m[i][4] / m[i][i]))
}

/// A second round whose left and right sides coincide, or nearly: 8, 9 or 10.
///
/// The label is seen so steeply that it is only five profile steps wide at its right side. The gradient along a row
/// is a flat dome over the left side, so that the right edge drifts there in three passes. The left edge finds
/// nothing, so that the left corners stay; they are put where the right ones come to lie.
pub fn folded(r: &mut Rng) -> Job {
    let scale = r.range(1.8, 2.4);
    let (wide, left, right) = (50.0 * scale, 5.0 * scale, 120.0 * scale);
    let (width, height) = ((190.0 * scale) as usize, (330.0 * scale) as usize);
    let origin = [66.0 * scale + r.unit(), 165.0 * scale + r.unit()];
    let place = |x: f64, y: f64| [origin[0] + x, origin[1] + y];
    let (top, fall) = (r.range(85.0, 95.0), r.range(5.5, 6.5));
    let ink = r.range(30.0, 45.0);
    let half = |x: f64| left + (right - left) * x / wide;
    let mut canvas = Canvas::new(width, height, 0.0);
    canvas.draw(1, [0, 0, width, height], |px, py| {
        let (x, y) = (px - origin[0], py - origin[1]);
        let z = (x / (wide / 2.42)).clamp(-3.2, 3.8);
        let ramp = 140.0 + 0.5 * (top * z - fall * z * z.abs().powi(3) / 4.0);
        // dark bands along the inside of the upper and the lower edge
        let band = |v: f64| match v {
            v if v < -0.06 => 0.0,
            v if v < 0.06 => (v + 0.06) / 0.12,
            v if v < 0.08 => 1.0,
            v if v < 0.14 => (0.14 - v) / 0.06,
            _ => 0.0,
        };
        let v = (y + half(x)) / (2.0 * half(x));
        let dark = if x > -2.0 * scale && x < 0.75 * wide { band(v.min(1.0 - v)) } else { 0.0 };
        Some((ramp - ink * dark) as f32)
    });
    let inverted = r.chance(0.5);
    if inverted {
        canvas.luma.iter_mut().for_each(|v| *v = 255.0 - *v);
    }
    let bytes = canvas.bytes(r, width, 0.0);
    let camera = r.chance(0.4).then(|| {
        let c = [300.0, 310.0, width as f64 / 2.0, height as f64 / 2.0];
        Camera { source: c, rectified: c, lens: if r.chance(0.7) { Lens::BrownConrady([0.0; 5]) } else { Lens::None } }
    });
    let mut job = Job {
        family: "",
        width: width as u32,
        height: height as u32,
        stride: width as u32,
        bytes,
        dim: 7,
        modules: vec![1; 49],
        sx: 1.0,
        sy: 1.0,
        corners: [place(0.0, -left), place(wide, -right), place(wide, right), place(0.0, left)],
        inverted,
        camera,
        settings: None,
    };
    // From there, find a place beside it from which the second round ends as wanted: on the spot, too near to be an
    // edge, or near enough that its points do not spread.
    let wanted = r.pick(&[8, 9, 10, 10]);
    if settle(&mut job) {
        let settled = job.corners;
        for _ in 0..400 {
            let far = r.decades(-14.5, -8.0);
            for i in [0, 3] {
                job.corners[i] = settled[i].map(|v| v + r.range(-1.0, 1.0) * far);
            }
            let ends = rounds(&job);
            if ends.len() == 2 && ends[1].0.number == wanted {
                break;
            }
        }
    }
    job
}
