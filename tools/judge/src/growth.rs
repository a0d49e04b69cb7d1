//! How the port's time grows with the samples of a job and with the size of its picture: ratios, of runs in one process.
use crate::families;
use crate::job::{Job, Lens};
use crate::turns::{median_of, Side, Turns};

/// The port's seconds in each repeat, for each of a list: which group of jobs, and whether marking. A repeat times all of them close
/// together, so that what else the machine does falls on all.
fn seconds(groups: &mut [Turns], list: &[(usize, bool)], repeats: u64) -> Vec<Vec<f64>> {
    let times: Vec<u32> = list.iter().map(|&(k, marking)| groups[k].enough(Side::Port, marking)).collect();
    let mut all = vec![Vec::new(); list.len()];
    for _ in 0..repeats {
        for (i, &(k, marking)) in list.iter().enumerate() {
            all[i].push(groups[k].seconds(times[i], Side::Port, marking));
        }
    }
    all
}

fn relative(to: &[f64], times: &[f64]) -> f64 {
    median_of(times, to, |time, to| time / to)
}

/// The same size of picture, and more modules.
fn with_samples(photographs: u64, repeats: u64) {
    let dims = [21, 33, 57, 177];
    let jobs = dims.map(|dim| (0..photographs).map(|seed| families::photograph(seed, 640, 480, dim, Lens::None)).collect::<Vec<_>>());
    let mut groups: Vec<Turns> = jobs.iter().map(|j| Turns::new(j, Side::Rust)).collect();
    let times = seconds(&mut groups, &[0, 1, 2, 3].map(|k| (k, false)), repeats);
    println!("relative to dim 21, at 640 x 480:\n dim  samples   time  time/samples");
    for (k, dim) in dims.iter().enumerate() {
        let samples = groups[k].samples as f64 / groups[0].samples as f64;
        let time = relative(&times[0], &times[k]);
        println!("{dim:4} {samples:8.2} {time:6.2} {:13.2}", time / samples);
    }
}

/// The same label, pixel for pixel, and more around it.
fn with_picture(photographs: u64, repeats: u64) {
    let sizes = [(640, 480), (1280, 960), (2560, 1920), (5120, 3840)];
    let first: Vec<Job> = (0..photographs).map(|seed| families::photograph_of(seed, 640, 480, 33, Lens::None, 120.0)).collect();
    let jobs = sizes.map(|(w, h)| first.iter().map(|job| families::framed(job, w, h)).collect::<Vec<_>>());
    let mut groups: Vec<Turns> = jobs.iter().map(|j| Turns::new(j, Side::Rust)).collect();
    assert!(groups.iter().all(|g| g.samples == groups[0].samples), "the picture alone grows");
    let list: Vec<(usize, bool)> = (0..sizes.len()).flat_map(|k| [(k, false), (k, true)]).collect();
    let times = seconds(&mut groups, &list, repeats);
    println!("relative to 640 x 480, at dim 33:\npicture      pixels  plain  marking  (marking - plain) / marking");
    for (k, (w, h)) in sizes.iter().enumerate() {
        let (plain, marking) = (&times[2 * k], &times[2 * k + 1]);
        let pixels = (w * h) as f64 / (640 * 480) as f64;
        let part = median_of(plain, marking, |plain, marking| (marking - plain) / marking);
        println!("{w:4} x {h:4} {pixels:7.0} {:6.2} {:8.2} {part:8.2}", relative(&times[0], plain), relative(&times[1], marking));
    }
}

pub fn run(photographs: u64, repeats: u64) -> bool {
    with_samples(photographs, repeats);
    with_picture(photographs, repeats);
    true
}
