//! The port's time over the Rust's, or over that of the port before, on the same photographs, in
//! one process.
use crate::families;
use crate::job::{Job, Lens};
use crate::turns::{median, median_of, Side, Turns};
use std::time::Instant;

pub struct Options<'a> {
    pub photographs: u64,
    pub repeats: u64,
    /// against the port before, not against the Rust
    pub before: bool,
    /// one side alone, for a profiler
    pub side: Option<&'a str>,
    /// only pictures of this width, labels of this dimension, without a lens or with one or the other, marking or not
    pub width: Option<&'a str>,
    pub dim: Option<&'a str>,
    pub lens: Option<&'a str>,
    pub marking: Option<&'a str>,
}

fn yes_no(b: bool) -> &'static str {
    if b {
        "yes"
    } else {
        "no"
    }
}

/// What a plain row and its marking row have in common.
struct Kind {
    width: usize,
    height: usize,
    dim: usize,
    lens: Lens,
}

/// What `--lens` takes: Brown-Conrady is yes.
fn lens_word(lens: Lens) -> &'static str {
    match lens {
        Lens::None => "no",
        Lens::BrownConrady(_) => "yes",
        Lens::Fisheye(_) => "fisheye",
    }
}

/// The lenses that are timed.
const LENSES: [Lens; 3] =
    [Lens::None, Lens::BrownConrady([-0.08, 0.02, 0.001, -0.0008, 0.003]), Lens::Fisheye([-0.02, 0.005, -0.001, 0.0003])];

impl Kind {
    /// Drawn side by side, since a large one through a lens takes seconds.
    fn photographs(&self, count: u64) -> Vec<Job> {
        let photograph = |seed| families::photograph(seed, self.width, self.height, self.dim, self.lens);
        std::thread::scope(|threads| {
            let drawn: Vec<_> = (0..count).map(|seed| threads.spawn(move || photograph(seed))).collect();
            drawn.into_iter().map(|job| job.join().expect("a photograph")).collect()
        })
    }
}

fn kinds() -> Vec<Kind> {
    let mut all = Vec::new();
    for (width, height) in [(640, 480), (2000, 1500), (6000, 4000)] {
        for dim in [21, 33, 57, 177] {
            all.extend(LENSES.map(|lens| Kind { width, height, dim, lens }));
        }
    }
    all
}

impl Options<'_> {
    /// What the port is timed against.
    fn against(&self) -> Side {
        if self.before || self.side == Some("before") {
            Side::Before
        } else {
            Side::Rust
        }
    }

    /// Do this with each row that is wanted.
    fn rows(&self, mut row: impl FnMut(&Kind, bool, &mut Turns)) {
        let wanted = |only: Option<&str>, this: &str| only.is_none_or(|o| o == this);
        for k in kinds() {
            if !wanted(self.width, &k.width.to_string()) || !wanted(self.dim, &k.dim.to_string()) || !wanted(self.lens, lens_word(k.lens)) {
                continue;
            }
            let jobs = k.photographs(self.photographs);
            let mut turns = Turns::new(&jobs, self.against());
            for marking in [false, true] {
                if wanted(self.marking, yes_no(marking)) {
                    row(&k, marking, &mut turns);
                }
            }
        }
    }
}

/// Medians of both sides' seconds and of their ratio, and the ratio of the quickest turns, which other work disturbs least.
struct Measured {
    other: f64,
    port: f64,
    ratio: f64,
    least: f64,
}

fn measured(turns: &mut Turns, against: Side, marking: bool, repeats: u64) -> Measured {
    let times = turns.enough(against, marking);
    let (mut other, mut port) = (Vec::new(), Vec::new());
    for _ in 0..repeats {
        // Close together, so that what else the machine does falls on both.
        other.push(turns.seconds(times, against, marking));
        port.push(turns.seconds(times, Side::Port, marking));
    }
    let quickest = |v: &[f64]| v.iter().copied().fold(f64::INFINITY, f64::min);
    Measured {
        ratio: median_of(&port, &other, |port, other| port / other),
        least: quickest(&port) / quickest(&other),
        other: median(other),
        port: median(port),
    }
}

fn table(o: &Options) {
    let other = format!("{} µs", o.against().name());
    println!("picture      dim lens    marking {other:>9}   port µs  ratio  least  samples  roots");
    let mut worst = [0.0_f64; 2];
    o.rows(|k, marking, turns| {
        let m = measured(turns, o.against(), marking, o.repeats);
        let n = turns.jobs();
        let (other, port) = (m.other / n as f64 * 1e6, m.port / n as f64 * 1e6);
        let (lens, marks) = (lens_word(k.lens), yes_no(marking));
        print!("{:4} x {:4} {:4} {lens:7} {marks:7} ", k.width, k.height, k.dim);
        println!("{other:9.1} {port:9.1} {:6.2} {:6.2} {:8} {:6}", m.ratio, m.least, turns.samples / n, turns.roots / n);
        worst[marking as usize] = worst[marking as usize].max(m.ratio);
    });
    for (name, ratio) in ["plain", "marking"].iter().zip(worst).filter(|w| w.1 > 0.0) {
        println!("worst ratio, {name}: {ratio:.2}");
    }
}

/// One side for 5 seconds a row.
fn alone(o: &Options, side: Side) {
    o.rows(|_, marking, turns| {
        let start = Instant::now();
        while start.elapsed().as_secs() < 5 {
            turns.turn(side, marking);
        }
    });
}

pub fn run(o: &Options) -> bool {
    if o.against() == Side::Before && !cfg!(before) {
        eprintln!("There is no port before to time: this judge was built without tools/judge/build --before ARCHIVE.");
        std::process::exit(2);
    }
    match o.side {
        None => table(o),
        Some("rust") => alone(o, Side::Rust),
        Some("port") => alone(o, Side::Port),
        Some("before") => alone(o, Side::Before),
        Some(_) => panic!("--side wants rust, port or before"),
    }
    true
}
