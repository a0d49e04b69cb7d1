//! Document 01's stand-in for the angle of `fit_line_tls_weighted`: Rust leaves arctangent, sine and
//! cosine inexact, so the compared Rust and the port share these steps.
use std::cell::Cell;

thread_local! {
    /// Square roots taken so far. Only the watched build counts, so that the timed one pays nothing.
    pub static ROOTS: Cell<u64> = const { Cell::new(0) };
}

fn root(x: f64) -> f64 {
    #[cfg(watched)]
    ROOTS.with(|n| n.set(n.get() + 1));
    x.sqrt()
}

pub fn direction(sxx: f64, sxy: f64, syy: f64) -> [f64; 2] {
    let a = sxx - syy;
    let b = 2.0 * sxy;
    let h = root(a * a + b * b);
    if h == 0.0 {
        return [1.0, 0.0];
    }
    if a >= 0.0 {
        let c = root((h + a) / (2.0 * h));
        let s = b / ((2.0 * h) * c);
        return [c, s];
    }
    let m = root((h - a) / (2.0 * h));
    let s = if b >= 0.0 { m } else { -m };
    let c = b / ((2.0 * h) * s);
    [c, s]
}
