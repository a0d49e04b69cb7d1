//! A job: what a refinement call is handed.
use std::fmt;

#[derive(Clone, Copy, Debug)]
pub enum Lens {
    None,
    /// k1, k2, p1, p2, k3
    BrownConrady([f64; 5]),
    /// k1, k2, k3, k4
    Fisheye([f64; 4]),
}

impl Lens {
    pub fn coefficients(&self) -> &[f64] {
        match self {
            Lens::None => &[],
            Lens::BrownConrady(k) => k,
            Lens::Fisheye(k) => k,
        }
    }

    pub fn coefficients_mut(&mut self) -> &mut [f64] {
        match self {
            Lens::None => &mut [],
            Lens::BrownConrady(k) => k,
            Lens::Fisheye(k) => k,
        }
    }
}

#[derive(Clone, Copy, Debug)]
pub struct Camera {
    /// fx, fy, cx, cy
    pub source: [f64; 4],
    pub rectified: [f64; 4],
    pub lens: Lens,
}

/// A fisheye's angle with the axis, bent.
fn bent_angle([k1, k2, k3, k4]: [f64; 4], angle: f64) -> f64 {
    let t2 = angle * angle;
    angle * (1.0 + t2 * (k1 + t2 * (k2 + t2 * (k3 + t2 * k4))))
}

impl Camera {
    /// From a rectified place to the source picture, for drawing alone.
    pub fn project(&self, p: [f64; 2]) -> [f64; 2] {
        let [fx, fy, cx, cy] = self.rectified;
        let (x, y) = ((p[0] - cx) / fx, (p[1] - cy) / fy);
        let (x, y) = self.bend(x, y);
        let [fx, fy, cx, cy] = self.source;
        [fx * x + cx, fy * y + cy]
    }

    fn bend(&self, x: f64, y: f64) -> (f64, f64) {
        let [k1, k2, p1, p2, k3] = match self.lens {
            Lens::None => return (x, y),
            Lens::BrownConrady(k) => k,
            Lens::Fisheye(k) => {
                let r = x.hypot(y).max(1e-12);
                let scale = bent_angle(k, r.atan()) / r;
                return (x * scale, y * scale);
            }
        };
        let r2 = x * x + y * y;
        let radial = 1.0 + r2 * (k1 + r2 * (k2 + r2 * k3));
        (
            x * radial + 2.0 * p1 * x * y + p2 * (r2 + 2.0 * x * x),
            y * radial + p1 * (r2 + 2.0 * y * y) + 2.0 * p2 * x * y,
        )
    }

    /// Back through the lens, nearly: by iteration, of a fisheye over the angle alone.
    fn straighten(&self, xd: f64, yd: f64) -> (f64, f64) {
        let (mut x, mut y) = (xd, yd);
        match self.lens {
            Lens::None => (),
            Lens::BrownConrady(_) => {
                for _ in 0..5 {
                    let (bx, by) = self.bend(x, y);
                    x += xd - bx;
                    y += yd - by;
                }
            }
            Lens::Fisheye(k) => {
                let bent = xd.hypot(yd).max(1e-12);
                let mut angle = bent;
                for _ in 0..5 {
                    angle = (angle + bent - bent_angle(k, angle)).clamp(0.0, 1.56);
                }
                let scale = angle.tan() / bent;
                (x, y) = (x * scale, y * scale);
            }
        }
        (x, y)
    }

    /// Back from the source picture, nearly.
    pub fn unproject(&self, p: [f64; 2]) -> [f64; 2] {
        let [fx, fy, cx, cy] = self.source;
        let (xd, yd) = ((p[0] - cx) / fx, (p[1] - cy) / fy);
        let (x, y) = self.straighten(xd, yd);
        let [fx, fy, cx, cy] = self.rectified;
        [fx * x + cx, fy * y + cy]
    }
}

#[derive(Clone, Debug)]
pub struct Job {
    pub family: &'static str,
    pub width: u32,
    pub height: u32,
    pub stride: u32,
    pub bytes: Vec<u8>,
    pub dim: u32,
    pub modules: Vec<u8>,
    pub sx: f64,
    pub sy: f64,
    /// in working pixels
    pub corners: [[f64; 2]; 4],
    pub inverted: bool,
    pub camera: Option<Camera>,
    /// as the calls under settings take them, good ones and others; none of a job for the calls without
    pub settings: Option<Vec<f64>>,
}

impl Job {
    /// How many bytes a sheet or a copy has.
    pub fn area(&self) -> usize {
        self.width as usize * self.height as usize
    }

    pub fn source_corners(&self) -> [[f64; 2]; 4] {
        self.corners.map(|[x, y]| [x / self.sx, y / self.sy])
    }
}

fn list(f: &mut fmt::Formatter, name: &str, values: &[f64]) -> fmt::Result {
    write!(f, "  {name}:")?;
    for v in values {
        write!(f, " {v:?} ({:016x})", v.to_bits())?;
    }
    writeln!(f)
}

fn rows(f: &mut fmt::Formatter, name: &str, bytes: &[u8], row: usize) -> fmt::Result {
    writeln!(f, "  {name}, {} bytes by rows of {row}:", bytes.len())?;
    for line in bytes.chunks(row.max(1)) {
        write!(f, "   ")?;
        for b in line {
            write!(f, " {b}")?;
        }
        writeln!(f)?;
    }
    Ok(())
}

impl fmt::Display for Job {
    fn fmt(&self, f: &mut fmt::Formatter) -> fmt::Result {
        writeln!(f, "  family: {}", self.family)?;
        writeln!(f, "  width {} height {} stride {} dim {} inverted {}", self.width, self.height, self.stride, self.dim, self.inverted)?;
        list(f, "scale", &[self.sx, self.sy])?;
        list(f, "corners", self.corners.as_flattened())?;
        match &self.camera {
            None => writeln!(f, "  no camera")?,
            Some(c) => {
                list(f, "source intrinsics", &c.source)?;
                list(f, "rectified intrinsics", &c.rectified)?;
                match &c.lens {
                    Lens::None => writeln!(f, "  lens: none")?,
                    Lens::BrownConrady(k) => list(f, "Brown-Conrady", k)?,
                    Lens::Fisheye(k) => list(f, "fisheye", k)?,
                }
            }
        }
        if let Some(settings) = &self.settings {
            list(f, "settings", settings)?;
        }
        rows(f, "grid", &self.modules, self.dim as usize)?;
        rows(f, "photograph", &self.bytes, self.stride as usize)
    }
}
