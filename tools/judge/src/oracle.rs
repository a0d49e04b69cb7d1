//! What a job must come to: by the documents' entry checks, and behind them by the Rust.
use crate::input::plain;
use crate::input::watched::Prepared;
use crate::job::Job;
use crate::rules;
use crate::settings;
use std::panic::{catch_unwind, AssertUnwindSafe};
use watched::refine::access::image::watch;
use watched::refine::access::{self, Input, RoundEnd};

pub use watched::refine::access::Outcome;

/// What was seen of the Rust on a job.
pub struct Seen {
    pub outcome: Outcome,
    /// 1 for each pixel that was read and bore weight; empty where an entry check refuses
    pub sheet: Vec<u8>,
    /// whether a sample had an x or a y fraction of 0
    pub on_lattice: bool,
    pub samples: u64,
    pub roots: u64,
    pub rounds: Vec<RoundEnd>,
}

/// Run something on the Rust's own input, of a job that passes the entry checks, under the job's settings.
pub fn with_input<T>(job: &Job, run: impl FnOnce(Input) -> T) -> T {
    let run = || run(Prepared::new(job).input());
    match &job.settings {
        None => run(),
        Some(list) => access::settings::under(settings::of_list(list), run),
    }
}

thread_local! {
    static QUIET: std::cell::Cell<bool> = const { std::cell::Cell::new(false) };
}

/// Panics of the Rust are counted and told with their job, not printed one by one.
pub fn keep_quiet() {
    let loud = std::panic::take_hook();
    std::panic::set_hook(Box::new(move |info| {
        if !QUIET.with(|q| q.get()) {
            loud(info)
        }
    }));
}

/// `Err` where the Rust panics on what document 01 does not refuse.
pub fn judge(job: &Job) -> Result<Seen, String> {
    let number = rules::entry(job);
    if number != 0 {
        return Ok(Seen {
            outcome: Outcome { number, ..Outcome::default() },
            sheet: Vec::new(),
            on_lattice: false,
            samples: 0,
            roots: 0,
            rounds: Vec::new(),
        });
    }
    QUIET.with(|q| q.set(true));
    let run = catch_unwind(AssertUnwindSafe(|| with_input(job, |input| seen(job, input))));
    QUIET.with(|q| q.set(false));
    run.map_err(|payload| {
        let text = payload.downcast_ref::<String>().cloned();
        text.or(payload.downcast_ref::<&str>().map(|s| s.to_string())).unwrap_or_default()
    })
}

fn seen(job: &Job, input: Input) -> Seen {
    let roots = access::roots();
    let weightless = || watch::WEIGHTLESS.with(|n| n.get());
    let before = weightless();
    watch::begin(job.width as usize, job.height as usize);
    let outcome = input.refine();
    let (sheet, _) = watch::end();
    let on_lattice = weightless() > before;
    let roots = access::roots() - roots;
    let rounds = input.rounds();
    let samples = input.samples();
    // The oracle holds itself to its own ways: the other entry, and the rounds one by one.
    assert!(same(&outcome, &input.refine_mapped()), "refine_corners and refine_corners_mapped differ");
    assert!(same(&outcome, &last(&rounds.iter().map(|r| r.1).collect::<Vec<_>>())), "the rounds differ from the run");
    let by_constants = access::settings::of_run() == access::settings::DEFAULTS;
    assert!(!by_constants || same(&outcome, &plainly(job)), "the Rust with its constants differs from that with settings");
    Seen {
        outcome,
        sheet,
        on_lattice,
        samples,
        roots,
        rounds: rounds.iter().map(|r| r.0).collect(),
    }
}

/// What the build makes of a job that keeps the constants.
fn plainly(job: &Job) -> Outcome {
    let made = plain::Prepared::new(job).input().refine();
    Outcome {
        number: made.number,
        corners: made.corners,
        counts: made.counts,
        valid: made.valid,
        refined: made.refined,
    }
}

/// What the rounds come to by document 01: a later one without a map or with under two edges leaves the answer.
fn last(rounds: &[Outcome]) -> Outcome {
    let mut best = rounds[0];
    for next in &rounds[1..] {
        if next.number != 8 && next.number != 9 {
            best = *next;
        }
    }
    best
}

/// Document 01's equality: +0 equals -0, and any NaN any NaN.
pub fn same_float(a: f64, b: f64) -> bool {
    a == b || (a.is_nan() && b.is_nan())
}

pub fn same_floats(a: &[f64], b: &[f64]) -> bool {
    a.len() == b.len() && a.iter().zip(b).all(|(a, b)| same_float(*a, *b))
}

pub fn same(a: &Outcome, b: &Outcome) -> bool {
    a.number == b.number
        && same_floats(a.corners.as_flattened(), b.corners.as_flattened())
        && a.counts == b.counts
        && a.valid == b.valid
        && a.refined == b.refined
}
