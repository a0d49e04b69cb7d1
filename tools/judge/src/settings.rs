//! Document 02's settings, for jobs and leaf calls: good ones, often at the ends of their ranges, and others.
use crate::families;
use crate::job::Job;
use crate::rng::{neighbour, Rng};
use crate::rules;
use watched::refine::access::settings::{Settings, DEFAULTS};

/// The least and the most of each, in the order of the list.
const ENDS: [(f64, f64); 9] =
    [(0.0, 1.0), (0.0, 1.0), (1.0, 10.0), (1.0, 354.0), (2.0, 354.0), (1.0, 255.0), (0.0, 100.0), (0.0, 100.0), (1.0, 4.0)];

/// The Rust's own constants as a list.
pub fn defaults() -> Vec<f64> {
    let d = DEFAULTS;
    let [a, b] = d.probe_module_fractions;
    let counts = [d.max_points_per_edge, d.min_edge_points].map(|n| n as f64);
    let factors = [d.outlier_floor_modules, d.outlier_median_multiplier];
    [&[a, b, d.edge_margin_modules], &counts[..], &[f64::from(d.contrast_floor)], &factors, &[d.rounds as f64]].concat()
}

/// What a run of the Rust is given for a list that no check refuses.
pub fn of_list(list: &[f64]) -> Settings {
    assert_eq!(rules::settings(list), 0, "the entry checks let these settings in");
    Settings {
        probe_module_fractions: [list[0], list[1]],
        edge_margin_modules: list[2],
        max_points_per_edge: list[3] as usize,
        min_edge_points: list[4] as usize,
        contrast_floor: list[5] as u8,
        outlier_floor_modules: list[6],
        outlier_median_multiplier: list[7],
        rounds: list[8] as usize,
    }
}

// ---- one each

fn fraction(r: &mut Rng) -> f64 {
    match r.below(8) {
        0 => r.pick(&[0.0, -0.0]),
        1 => 1.0,
        2 => r.pick(&[5e-324, neighbour(1.0, -1), 0.5, 0.35, 0.7]),
        _ => r.unit(),
    }
}

/// The modules without probes: also such that a probe stands at their end or beside it, on the one side or the other.
fn margin(r: &mut Rng, dim: u32, fraction: f64) -> f64 {
    let (m, n) = (r.int(0, 10) as f64, dim as f64);
    let at_place = match r.below(7) {
        0 => 1.0,
        1 => 10.0,
        2 | 3 => m + fraction,
        4 | 5 => n - (n - 1.0 - m + fraction),
        _ => r.range(1.0, 10.0),
    };
    neighbour(at_place, r.pick(&[0, 0, 0, 1, -1])).clamp(1.0, 10.0)
}

/// The most probes: at the ends, about the Rust's, and above and below what an edge of this side can have.
fn limit(r: &mut Rng, dim: u32) -> f64 {
    match r.below(8) {
        0 => 1.0,
        1 => 354.0,
        2 => r.pick(&[2.0, 3.0, 63.0, 64.0, 65.0, 353.0]),
        _ => r.int(1, 2 * dim.max(1) as i64) as f64,
    }
}

fn least(r: &mut Rng) -> f64 {
    match r.below(8) {
        0 | 1 => 2.0,
        2 => r.pick(&[354.0, 353.0, 64.0, 65.0]),
        3 => r.pick(&[3.0, 5.0, 6.0, 7.0]),
        _ => r.int(2, 30) as f64,
    }
}

/// The contrast floor: also the very steps of light and dark that the family `stripes` draws.
fn contrast(r: &mut Rng) -> f64 {
    match r.below(8) {
        0 | 1 => 1.0,
        2 => r.pick(&[255.0, 254.0, 128.0, 24.0, 11.0, 12.0, 13.0]),
        3 => r.int(1, 255) as f64,
        _ => r.int(1, 40) as f64,
    }
}

/// A factor of the outliers. At 1 the threshold can be the median itself, at 0 a point stays that lies on the line alone.
fn factor(r: &mut Rng) -> f64 {
    match r.below(9) {
        0 => r.pick(&[0.0, -0.0, 5e-324]),
        1 => r.pick(&[100.0, neighbour(100.0, -1)]),
        2 => 1.0,
        3 => neighbour(r.pick(&[1.0, 2.0, 0.15]), r.int(-1, 1)),
        4 => r.range(0.0, 100.0),
        _ => r.decades(-4.0, 1.0),
    }
}

// ---- lists

/// Settings that are taken: the Rust's own, some or half of them others, or all. The fractions are also equal and turned.
pub fn good(r: &mut Rng, dim: u32) -> Vec<f64> {
    let dim = dim.min(177);
    let share = r.pick(&[0.0, 0.15, 0.5, 0.5, 1.0]);
    let mut list = defaults();
    let mut others = [0.0; 9];
    (others[0], others[1]) = (fraction(r), fraction(r));
    let one = r.pick(&others[..2]);
    others[2] = margin(r, dim, one);
    (others[3], others[4], others[5]) = (limit(r, dim), least(r), contrast(r));
    (others[6], others[7], others[8]) = (factor(r), factor(r), r.int(1, 4) as f64);
    for (number, other) in list.iter_mut().zip(others) {
        if r.chance(share) {
            *number = other;
        }
    }
    match r.below(10) {
        0 => list[1] = list[0],
        1 | 2 => list.swap(0, 1),
        _ => (),
    }
    list
}

/// Settings of which one is at or beside an end of its range, is not finite, is not whole, is whole past 32 bits, or is
/// anything; or too few of them.
pub fn others(r: &mut Rng, dim: u32) -> Vec<f64> {
    let mut list = if r.chance(0.5) { defaults() } else { good(r, dim) };
    let at = r.below(9) as usize;
    let (low, high) = ENDS[at];
    let end = r.pick(&[low, high]);
    list[at] = match r.below(10) {
        0 => neighbour(low, -1),
        1 => neighbour(high, 1),
        2 => r.pick(&[low - 1.0, high + 1.0]),
        3 => r.pick(&[low - 0.5, low + 0.5, high - 0.5, high + 0.5]),
        4 => neighbour(end, r.int(-1, 1)),
        5 => r.pick(&[f64::NAN, f64::INFINITY, f64::NEG_INFINITY]),
        6 => r.pick(&[-0.0, -list[at], end + 4294967296.0, end - 4294967296.0]),
        7 => list[at] + r.pick(&[0.5, 1e-9]),
        8 => r.float(),
        _ => {
            list.truncate(at);
            return list;
        }
    };
    list
}

/// Settings that are taken, or now and then others, with numbers behind the ninth, which are not read.
pub fn any(r: &mut Rng, dim: u32) -> Vec<f64> {
    let mut list = if r.chance(0.15) { others(r, dim) } else { good(r, dim) };
    if list.len() == 9 && r.chance(0.1) {
        list.extend((0..r.int(1, 3)).map(|_| r.float()));
    }
    list
}

/// One dark module in the middle of each edge, whose two probes are one place: the two points of its line are too.
fn lonely(r: &mut Rng, job: &mut Job) {
    let n = job.dim as usize;
    if !(3..=177).contains(&n) || job.modules.len() != n * n {
        return;
    }
    let m = r.int(1, n as i64 - 2) as usize;
    for k in 0..n {
        for at in [k, k * n, k * n + n - 1, (n - 1) * n + k] {
            job.modules[at] = 0;
        }
    }
    for at in [m, m * n, m * n + n - 1, (n - 1) * n + m] {
        job.modules[at] = 1;
    }
    let f = fraction(r);
    let contrast = contrast(r).min(60.0);
    job.settings = Some(vec![f, f, 1.0, 354.0, 2.0, contrast, factor(r), factor(r), r.int(1, 4) as f64]);
}

/// The job of a seed, under settings. Labels of many modules come more often, and half of them with a higher limit, since an edge
/// can have more than 64 probes there.
pub fn job(seed: u64, only: Option<&str>) -> Job {
    let mut r = Rng::new(seed ^ 0x5e77_0000_0000_0000);
    let wide = r.chance(0.1).then_some("wide");
    let mut job = families::job(seed, only.or(wide));
    let mut list = any(&mut r, job.dim);
    if job.family == "wide" && list.len() > 3 && r.chance(0.5) {
        list[3] = r.int(65, 354) as f64;
    }
    job.settings = Some(list);
    if r.chance(0.04) {
        lonely(&mut r, &mut job);
    }
    job
}
