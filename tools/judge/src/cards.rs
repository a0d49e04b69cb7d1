//! Job cards with the Rust's answers, for the list that the gate replays: a few small jobs of each way to end.
use crate::compare;
use crate::families;
use crate::job::{Camera, Job, Lens};
use crate::oracle::{self, Outcome, Seen};
use std::collections::BTreeMap;
use std::io::Write;

const LARGEST: usize = 9000;

fn field(card: &mut Vec<u8>, tag: u8, contents: &[u8]) {
    card.push(tag);
    card.extend((contents.len() as u16).to_le_bytes());
    card.extend(contents);
}

fn floats(numbers: &[f64]) -> Vec<u8> {
    numbers.iter().flat_map(|x| x.to_le_bytes()).collect()
}

/// The card that asks for a job, where one of so many bytes for photograph and grid can: sizes have two bytes there and dim one, and
/// settings have no field.
pub fn card(job: &Job, most: usize) -> Option<Vec<u8>> {
    let size = [job.width, job.height, job.stride];
    if job.settings.is_some() {
        return None;
    }
    if size.iter().any(|&n| n > 65535) || job.dim > 255 || job.bytes.len() + job.modules.len() > most {
        return None;
    }
    let mut card = Vec::new();
    field(&mut card, 1, &size.iter().flat_map(|&n| (n as u16).to_le_bytes()).collect::<Vec<_>>());
    field(&mut card, 2, &job.bytes);
    field(&mut card, 3, &[&[job.dim as u8], &job.modules[..]].concat());
    field(&mut card, 4, &floats(&[job.sx, job.sy]));
    field(&mut card, 5, &floats(job.corners.as_flattened()));
    field(&mut card, 6, &[job.inverted as u8]);
    if let Some(c) = &job.camera {
        field(&mut card, 7, &floats(&[c.source, c.rectified].concat()));
        let kind = match &c.lens {
            Lens::None => 0,
            Lens::BrownConrady(_) => 1,
            Lens::Fisheye(_) => 2,
        };
        field(&mut card, 8, &[&[kind], &floats(c.lens.coefficients())[..]].concat());
    }
    Some(card)
}

/// The result card of an answer.
pub fn result(o: &Outcome) -> Vec<u8> {
    let bits = |x: f64| if x.is_nan() { 0x7ff8 << 48 } else { x.to_bits() };
    let corners: Vec<u8> = o.corners.as_flattened().iter().flat_map(|&x| bits(x).to_le_bytes()).collect();
    let edge = |e: usize| [&o.counts[e].map(|n| (n as u16).to_le_bytes()).concat()[..], &[o.valid[e] as u8]].concat();
    let mut card = Vec::new();
    field(&mut card, 16, &corners);
    field(&mut card, 19, &[0, 1, 2, 3].map(edge).concat());
    field(&mut card, 18, &o.refined.map(|flag| flag as u8));
    card
}

fn numbers<const N: usize>(contents: &[u8]) -> [f64; N] {
    let mut all = [0.0; N];
    for (x, b) in all.iter_mut().zip(contents.chunks(8)) {
        *x = f64::from_le_bytes(b.try_into().expect("eight bytes"));
    }
    all
}

/// The job of a card that is well formed.
fn job(card: &[u8]) -> Job {
    let (mut fields, mut at) = (BTreeMap::new(), 0);
    while at < card.len() {
        let size = u16::from_le_bytes([card[at + 1], card[at + 2]]) as usize;
        fields.insert(card[at], &card[at + 3..at + 3 + size]);
        at += 3 + size;
    }
    let size = |i: usize| u16::from_le_bytes([fields[&1][i], fields[&1][i + 1]]) as u32;
    let [sx, sy] = numbers(fields[&4]);
    let c: [f64; 8] = numbers(fields[&5]);
    Job {
        family: "card",
        width: size(0),
        height: size(2),
        stride: size(4),
        bytes: fields[&2].to_vec(),
        dim: fields[&3][0] as u32,
        modules: fields[&3][1..].to_vec(),
        sx,
        sy,
        corners: [0, 1, 2, 3].map(|i| [c[2 * i], c[2 * i + 1]]),
        inverted: fields[&6][0] == 1,
        camera: fields.get(&7).map(|pair| Camera {
            source: numbers(pair),
            rectified: numbers(&pair[32..]),
            lens: match fields[&8][0] {
                1 => Lens::BrownConrady(numbers(&fields[&8][1..])),
                2 => Lens::Fisheye(numbers(&fields[&8][1..])),
                _ => Lens::None,
            },
        }),
        settings: None,
    }
}

/// Prints what the Rust makes of a well formed card.
pub fn one(path: &str) -> bool {
    let job = job(&std::fs::read(path).expect("a card"));
    oracle::judge(&job).map(|seen| print!("{}", lines(&seen.outcome))).is_ok()
}

/// Document 01's lines.
fn lines(o: &Outcome) -> String {
    let mut text = format!("result {}\n", o.number);
    if o.number != 0 {
        return text;
    }
    for i in 0..4 {
        let bits = o.corners[i].map(|x| if x.is_nan() { 0x7ff8 << 48 } else { x.to_bits() });
        text += &format!("corner {i} {:016x} {:016x} {}\n", bits[0], bits[1], o.refined[i] as u8);
    }
    for i in 0..4 {
        let [probed, fit, dropped] = o.counts[i];
        text += &format!("edge {i} {probed} {fit} {dropped} {}\n", o.valid[i] as u8);
    }
    text
}

/// FNV-1a of 64 bits.
fn digest(bytes: impl Iterator<Item = u8>) -> u64 {
    bytes.fold(0xcbf2_9ce4_8422_2325, |h, b| (h ^ b as u64).wrapping_mul(0x100_0000_01b3))
}

/// How many pixels the Rust read that bore weight, and digests of the mark sheet and the blanked copy that this makes; empty where an entry check refuses.
fn marks(job: &Job, seen: &Seen) -> String {
    if seen.sheet.is_empty() {
        return String::new();
    }
    let (width, stride) = (job.width as usize, job.stride as usize);
    let copy = seen.sheet.iter().enumerate().map(|(i, &mark)| mark * job.bytes[i / width * stride + i % width]);
    let count: usize = seen.sheet.iter().map(|&mark| mark as usize).sum();
    format!("marks {count} {:016x} {:016x}\n", digest(seen.sheet.iter().copied()), digest(copy))
}

pub struct Options<'a> {
    pub seeds: u64,
    /// how many cards of each way to end, the shortest
    pub of_each: usize,
    /// tell what was read too: that anything was, and a stride above the width, are ways of their own then. Where nothing was read
    /// stride and polarity are none
    pub marks: bool,
    /// jobs of one family alone
    pub family: Option<&'a str>,
    pub list: &'a str,
    pub answers: &'a str,
}

/// Writes each card, behind its length in three bytes, to the file `list`, and the answers' lines to the file `answers`.
pub fn run(options: &Options) -> bool {
    let mut kept: BTreeMap<(u32, bool, bool, String, bool, bool), Vec<(Vec<u8>, String)>> = BTreeMap::new();
    for seed in 0..options.seeds {
        let job = families::job(seed, options.family);
        let Some(card) = card(&job, LARGEST) else { continue };
        let Ok(seen) = oracle::judge(&job) else { continue };
        let o = &seen.outcome;
        // The comparison counts both zeros alike, a stored line does not.
        if o.number == 0 && o.corners.as_flattened().contains(&0.0) {
            continue;
        }
        let read = !options.marks || seen.sheet.contains(&1);
        let wide = options.marks && job.stride > job.width;
        let key = (o.number, job.camera.is_some(), read && job.inverted, compare::way(&seen), read, read && wide);
        let told = if options.marks { lines(o) + &marks(&job, &seen) } else { lines(o) };
        let cards = kept.entry(key).or_default();
        cards.push((card, told));
        cards.sort_by_key(|c| c.0.len());
        cards.truncate(options.of_each);
    }
    let (mut cards, mut text) = (Vec::new(), String::new());
    for (card, lines) in kept.into_values().flatten() {
        cards.extend(&(card.len() as u32).to_le_bytes()[..3]);
        cards.extend(card);
        text += &lines;
        text += "\n";
    }
    let write = |path: &str, bytes: &[u8]| std::fs::File::create(path).and_then(|mut f| f.write_all(bytes));
    write(options.list, &cards).and(write(options.answers, text.as_bytes())).is_ok()
}
