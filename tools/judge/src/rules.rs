//! The documents' own rules, for what lies outside the comparison with the Rust: document 01's
//! entry checks, and document 02's check of settings, its smoothing and its result cards, of which
//! there is no Rust.
use crate::job::{Camera, Job};

/// 1 and 2; 0 where neither refuses.
pub fn photograph(bytes: usize, width: u32, height: u32, stride: u32) -> u32 {
    let sized = |n: u32| (1..=16384).contains(&n);
    if !sized(width) || !sized(height) {
        return 1;
    }
    let needed = (height as usize - 1) * stride as usize + width as usize;
    if stride < width || stride > 65535 || bytes < needed {
        return 2;
    }
    0
}

/// 6; 0 where it does not refuse.
pub fn camera(c: &Camera) -> u32 {
    let intrinsics = |i: &[f64; 4]| i.iter().all(|v| v.is_finite()) && i[0] > 0.0 && i[1] > 0.0;
    let lens = c.lens.coefficients().iter().all(|v| v.is_finite());
    if intrinsics(&c.source) && intrinsics(&c.rectified) && lens {
        0
    } else {
        6
    }
}

/// 3; 0 where it does not refuse.
fn grid(modules: &[u8], dim: u32) -> u32 {
    let n = dim as usize * dim as usize;
    if !(2..=177).contains(&dim) || modules.len() < n || modules[..n].iter().any(|&m| m > 1) {
        return 3;
    }
    0
}

/// 25; 0 where it does not refuse. Document 02: the two probe fractions, the margin, the probe limit, the least points, the
/// contrast floor, the two outlier factors and the rounds, each from its least to its most. Numbers behind the ninth are not read.
pub fn settings(list: &[f64]) -> u32 {
    let [a, b, margin, limit, least, floor, c, d, rounds, ..] = *list else {
        return 25;
    };
    let in_range = |x: f64, low: f64, high: f64| x.is_finite() && x >= low && x <= high;
    let whole = |x: f64, low: f64, high: f64| x.fract() == 0.0 && in_range(x, low, high);
    let fractions = in_range(a, 0.0, 1.0) && in_range(b, 0.0, 1.0);
    let counts = whole(limit, 1.0, 354.0) && whole(least, 2.0, 354.0) && whole(rounds, 1.0, 4.0);
    let factors = in_range(c, 0.0, 100.0) && in_range(d, 0.0, 100.0);
    if fractions && in_range(margin, 1.0, 10.0) && counts && whole(floor, 1.0, 255.0) && factors {
        0
    } else {
        25
    }
}

/// The entry checks 1 to 6 and 25, in order; 0 where none refuses.
pub fn entry(job: &Job) -> u32 {
    let scale = |s: f64| s.is_finite() && s > 0.0;
    let near = |x: f64| x.is_finite() && x.abs() <= 1048576.0;
    let first = photograph(job.bytes.len(), job.width, job.height, job.stride);
    if first != 0 {
        return first;
    }
    if grid(&job.modules, job.dim) != 0 {
        return 3;
    }
    if !scale(job.sx) || !scale(job.sy) {
        return 4;
    }
    if !job.source_corners().as_flattened().iter().all(|&x| near(x)) {
        return 5;
    }
    match job.camera.as_ref().map_or(0, camera) {
        0 => job.settings.as_deref().map_or(0, settings),
        number => number,
    }
}

/// Smooths a scan to the front of `out`; 21 or 22, which leave it as it was, else 0.
pub fn smooth(scan: &[u16], window: u32, out: &mut [u16]) -> u32 {
    if window % 2 == 0 || !(3..=31).contains(&window) {
        return 21;
    }
    if out.len() < scan.len() {
        return 22;
    }
    let reach = (window - 1) as usize / 2;
    for (i, height) in out.iter_mut().enumerate().take(scan.len()) {
        let in_window = |k: &usize| k.abs_diff(i) <= reach;
        let heights: Vec<u64> = (0..scan.len()).filter(in_window).map(|k| u64::from(scan[k])).collect();
        *height = (heights.iter().sum::<u64>() / heights.len() as u64) as u16;
    }
    0
}

/// Contents and rest of a field of this tag and this length; none where it is another.
fn field(card: &[u8], tag: u8, size: usize) -> Option<(&[u8], &[u8])> {
    let rest = card.strip_prefix(&[tag, size as u8, 0])?;
    rest.split_at_checked(size)
}

/// Corners, counts and flags of a result card whose counts have so many bytes each.
fn parts(card: &[u8], wide: usize) -> Option<(&[u8], &[u8], &[u8])> {
    let size = 3 * wide + 1;
    let (corners, rest) = field(card, 16, 64)?;
    let (stats, rest) = field(rest, if wide == 1 { 17 } else { 19 }, 4 * size)?;
    let (flags, rest) = field(rest, 18, 4)?;
    let bits = stats.iter().skip(3 * wide).step_by(size).chain(flags).all(|&b| b < 2);
    (rest.is_empty() && bits).then_some((corners, stats, flags))
}

/// Makes a result card one of the other form, at the front of `out`; 23, 24 or 12, which leave it as it was, else 0. `wide` is how
/// many bytes a count of the card has: 1 of an older one, which is widened, and 2 of a newer one, which is narrowed.
pub fn convert(card: &[u8], wide: usize, out: &mut [u8]) -> u32 {
    let Some((corners, stats, flags)) = parts(card, wide) else {
        return 23;
    };
    let mut counts = Vec::new();
    for edge in stats.chunks(3 * wide + 1) {
        for count in edge[..3 * wide].chunks(wide) {
            match (wide, count) {
                (1, _) => counts.extend([count[0], 0]),
                (_, [low, 0]) => counts.push(*low),
                _ => return 24,
            }
        }
        counts.push(edge[3 * wide]);
    }
    let tag = if wide == 1 { 19 } else { 17 };
    let head = |tag: u8, n: usize| vec![tag, n as u8, 0];
    let made = [&head(16, 64)[..], corners, &head(tag, counts.len()), &counts, &head(18, 4), flags].concat();
    if out.len() < made.len() {
        return 12;
    }
    out[..made.len()].copy_from_slice(&made);
    0
}
