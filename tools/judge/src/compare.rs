//! Jobs, one seed each, on the Rust and on the port.
use crate::cards;
use crate::families;
use crate::job::Job;
use crate::oracle::{self, Outcome, Seen};
use crate::port;
use crate::settings;
use std::collections::BTreeMap;

/// What differs between the Rust and the port on a job, if anything.
fn difference(job: &Job, seen: &Seen) -> Option<String> {
    let got = port::call(job)?;
    if !agree(&seen.outcome, &got) {
        return Some(format!("the call\n  Rust: {}\n  port: {}", show(&seen.outcome), show(&got)));
    }
    carded(job, &got).or_else(|| marking(job, seen))
}

/// The job as a card, where a card can hold it: the number and the result card, byte for byte. The corners of a refinement were
/// held against the Rust's before; a NaN is written in one way.
fn carded(job: &Job, refined: &Outcome) -> Option<String> {
    const OLD: u8 = 0xa5;
    let card = cards::card(job, 65000)?;
    let mut out = vec![OLD; 110];
    let number = port::run_card(&card, &mut out)?;
    let mut expected = if number == 0 { cards::result(refined) } else { Vec::new() };
    expected.resize(out.len(), OLD);
    let same = number == refined.number && out == expected;
    (!same).then(|| format!("the job card: number {number}, result card {out:?}, expected {expected:?}"))
}

/// Equal by document 01; a refusal's zeros are +0.
fn agree(rust: &Outcome, port: &Outcome) -> bool {
    let zeros = port.corners.as_flattened().iter().all(|x| x.to_bits() == 0);
    oracle::same(rust, port) && (port.number == 0 || zeros)
}

/// The marking call: its answer, sheet and copy, and the run over the copy.
fn marking(job: &Job, seen: &Seen) -> Option<String> {
    const OLD: u8 = 0xa5;
    let area = if seen.outcome.number == 1 { 64 } else { job.area() };
    let (mut sheet, mut copy) = (vec![OLD; area + 3], vec![OLD; area + 5]);
    let got = port::call_marking(job, &mut sheet, &mut copy)?;
    if !agree(&seen.outcome, &got) {
        return Some(format!("the marking call\n  Rust: {}\n  port: {}", show(&seen.outcome), show(&got)));
    }
    if (1..=6).contains(&got.number) || got.number == 25 {
        if sheet.iter().chain(&copy).any(|&b| b != OLD) {
            return Some(format!("a refusal by {} wrote on sheet or copy", got.number));
        }
        // It comes before 7.
        let short = port::call_marking(job, &mut [], &mut [])?;
        return (!agree(&got, &short)).then(|| format!("without sheet and copy: {}", show(&short)));
    }
    if sheet[area..].iter().chain(&copy[area..]).any(|&b| b != OLD) {
        return Some("bytes past width x height were written".to_string());
    }
    if let Some(i) = (0..area).find(|&i| sheet[i] != seen.sheet[i]) {
        let (x, y) = (i % job.width as usize, i / job.width as usize);
        return Some(format!("the sheet at column {x}, row {y}: Rust {}, port {}", seen.sheet[i], sheet[i]));
    }
    let byte = |i: usize| job.bytes[i / job.width as usize * job.stride as usize + i % job.width as usize];
    if let Some(i) = (0..area).find(|&i| copy[i] != if sheet[i] == 1 { byte(i) } else { 0 }) {
        return Some(format!("the copy at byte {i} is {}", copy[i]));
    }
    let blanked = Job { bytes: copy, stride: job.width, ..job.clone() };
    let (mut again, mut other) = (vec![OLD; area], vec![OLD; area]);
    let replay = port::call_marking(&blanked, &mut again, &mut other)?;
    if !agree(&got, &replay) || again != sheet[..area] {
        return Some(format!("the run over the blanked copy\n  first: {}\n  again: {}", show(&got), show(&replay)));
    }
    if other != blanked.bytes[..area] {
        return Some("the run over the blanked copy left another copy".to_string());
    }
    // A sheet or a copy that is too short is 7, behind 1 to 6 and 25, and leaves both.
    let seven = Outcome { number: 7, ..Outcome::default() };
    for short in [[area - 1, area], [area, area - 1]] {
        let (mut sheet, mut copy) = (vec![OLD; short[0]], vec![OLD; short[1]]);
        let got = port::call_marking(job, &mut sheet, &mut copy)?;
        if !agree(&seven, &got) || sheet.iter().chain(&copy).any(|&b| b != OLD) {
            return Some(format!("sheet and copy of {short:?} bytes: {}", show(&got)));
        }
    }
    None
}

pub fn show(o: &Outcome) -> String {
    let bits: Vec<String> = o.corners.as_flattened().iter().map(|x| format!("{x:?} ({:016x})", x.to_bits())).collect();
    format!("number {} corners {} counts {:?} valid {:?} flags {:?}", o.number, bits.join(" "), o.counts, o.valid, o.refined)
}

/// How a run went, in a few words for the summary.
pub fn way(seen: &Seen) -> String {
    let words: Vec<&str> = seen
        .rounds
        .iter()
        .map(|r| match (r.number, r.second_fit) {
            (0, _) => "answered",
            (8, _) => "no map",
            (9, _) => "thin",
            (_, false) => "first fit",
            (_, true) => "second fit",
        })
        .collect();
    let flags = seen.outcome.refined.iter().filter(|f| **f).count();
    match seen.outcome.number {
        0 => format!("{}, {flags} corners refined", words.join(" then ")),
        _ => words.join(" then "),
    }
}

#[derive(Default)]
struct Tally {
    jobs: u64,
    by_number: BTreeMap<u32, u64>,
    by_way: BTreeMap<(u32, bool, String), u64>,
    by_family: BTreeMap<&'static str, u64>,
    unfinite: u64,
    past_64: u64,
    on_lattice: u64,
    panicked: u64,
    differed: u64,
}

pub struct Options<'a> {
    pub first: u64,
    pub count: u64,
    pub family: Option<&'a str>,
    /// say how the jobs ended in more than a line
    pub ways: bool,
    /// under settings, by the calls that take them
    pub settings: bool,
}

/// The job of a seed.
fn job(seed: u64, family: Option<&str>, under_settings: bool) -> Job {
    if under_settings {
        settings::job(seed, family)
    } else {
        families::job(seed, family)
    }
}

/// Whether all agreed.
pub fn run(o: &Options) -> bool {
    let mut t = Tally::default();
    assert!(port::are_defaults(&settings::defaults()), "the bindings' default settings are the Rust's constants");
    for seed in o.first..o.first + o.count {
        let job = job(seed, o.family, o.settings);
        t.jobs += 1;
        *t.by_family.entry(job.family).or_default() += 1;
        let found = match oracle::judge(&job) {
            Err(text) => {
                t.panicked += 1;
                Some(format!("the Rust panics: {text}"))
            }
            Ok(seen) => {
                *t.by_number.entry(seen.outcome.number).or_default() += 1;
                *t.by_way.entry((seen.outcome.number, job.camera.is_some(), way(&seen))).or_default() += 1;
                t.past_64 += seen.outcome.counts.iter().any(|c| c[0] > 64) as u64;
                t.unfinite += seen.outcome.corners.as_flattened().iter().any(|x| !x.is_finite()) as u64;
                t.on_lattice += seen.on_lattice as u64;
                difference(&job, &seen)
            }
        };
        if let Some(text) = found {
            t.differed += 1;
            if t.differed == 1 {
                println!("seed {seed} differs: {text}\n{job}");
            }
        }
    }
    if o.ways {
        for ((number, camera, way), n) in &t.by_way {
            let camera = if *camera { "camera" } else { "plain" };
            println!("{n:7}  number {number:2}  {camera:6}  {way}");
        }
        for (family, n) in &t.by_family {
            println!("{n:7}  {family}");
        }
        println!("{:7}  answers with a corner that is not finite", t.unfinite);
        println!("{:7}  answers with more than 64 probes on an edge", t.past_64);
    }
    let numbers: Vec<String> = t.by_number.iter().map(|(n, k)| format!("{n}: {k}")).collect();
    let marks = if cfg!(port) { "sheets and copies compared" } else { "no port to compare with" };
    println!("{} jobs had a sample whose x or y fraction is 0", t.on_lattice);
    println!("jobs {}; ended in {}; {marks}; the Rust panicked {}; differed {}", t.jobs, numbers.join(", "), t.panicked, t.differed);
    t.differed == 0
}

/// One job in full, with what both make of it.
pub fn explain(seed: u64, family: Option<&str>, under_settings: bool) -> bool {
    let job = job(seed, family, under_settings);
    print!("{job}");
    if crate::rules::entry(&job) == 0 {
        for (k, (_, given)) in oracle::with_input(&job, |input| input.rounds()).iter().enumerate() {
            println!("round {}: {}", k + 1, show(given));
        }
    }
    match oracle::judge(&job) {
        Err(text) => {
            println!("the Rust panics: {text}");
            false
        }
        Ok(seen) => {
            println!("Rust: {}, {} samples, {} roots", show(&seen.outcome), seen.samples, seen.roots);
            if let Some(got) = port::call(&job) {
                println!("port: {}", show(&got));
            }
            let found = difference(&job, &seen);
            println!("{}", found.as_deref().unwrap_or("no difference"));
            found.is_none()
        }
    }
}
