//! The stand-in for the arctangent of the fisheye lens: Rust leaves `atan` inexact, so the compared
//! Rust and the port share these steps.

/// The arctangent of i / 256 in units of 2 to the -52.
const ENTRIES: [u64; 257] = include!("entries.rs");

fn angle(i: usize) -> f64 {
    ENTRIES[i] as f64 / 4503599627370496.0
}

fn to_1(q: f64) -> f64 {
    let i = (q * 256.0).floor() as usize;
    let c = i as f64 / 256.0;
    let t = (q - c) / (1.0 + q * c);
    angle(i) + t - t * t * t / 3.0 + t * t * t * t * t / 5.0
}

pub fn arctan(r: f64) -> f64 {
    if r.is_nan() {
        return r;
    }
    if r > 1.0 {
        return 2.0 * angle(256) - to_1(1.0 / r);
    }
    to_1(r)
}
