//! Turns over a group of jobs, by the Rust, by the port or by the port before, with or without
//! marking, and the time that they take.
use crate::input::{marked, plain};
use crate::job::Job;
use crate::oracle::{self, Outcome};
use crate::port;
use std::hint::black_box;

#[derive(Clone, Copy, PartialEq)]
pub enum Side {
    Rust,
    Port,
    /// the port of the archive before
    Before,
}

impl Side {
    pub fn name(self) -> &'static str {
        match self {
            Side::Rust => "Rust",
            Side::Port => "port",
            Side::Before => "before",
        }
    }
}

/// What a marking run is lent.
#[derive(PartialEq)]
struct Marks {
    sheet: Vec<u8>,
    copy: Vec<u8>,
}

impl Marks {
    fn new(area: usize) -> Self {
        Marks { sheet: vec![0; area], copy: vec![0; area] }
    }

    /// So that nothing is left of an earlier run.
    fn spoil(&mut self) {
        self.sheet.fill(0xa5);
        self.copy.fill(0xa5);
    }
}

/// A port's marking call.
type Marking = fn(&Job, &mut [u8], &mut [u8]) -> Option<Outcome>;

/// Jobs, what the Rust is handed of them, and what every marking run is lent.
pub struct Turns<'a> {
    jobs: &'a [Job],
    plain: Vec<plain::Prepared<'a>>,
    marked: Vec<marked::Prepared<'a>>,
    marks: Marks,
    /// of all jobs
    pub samples: u64,
    pub roots: u64,
}

impl<'a> Turns<'a> {
    /// The port will be timed against this side. All do the same on these jobs, or it panics:
    /// nothing else is timed.
    pub fn new(jobs: &'a [Job], against: Side) -> Self {
        let area = jobs.iter().map(Job::area).max().expect("a job");
        let mut turns = Turns {
            jobs,
            plain: jobs.iter().map(plain::Prepared::new).collect(),
            marked: jobs.iter().map(marked::Prepared::new).collect(),
            marks: Marks::new(area),
            samples: 0,
            roots: 0,
        };
        turns.check(against);
        turns
    }

    /// Every job is answered, the marked build's sheet is what the watched build saw, and the
    /// port's answers, plain and marking, its sheet and its copy are the Rust's. So are those of
    /// the port before, if it will be timed.
    fn check(&mut self, against: Side) {
        let mut its = Marks::new(self.marks.sheet.len());
        for (job, rust) in self.jobs.iter().zip(&self.marked) {
            let seen = oracle::judge(job).expect("the Rust does not panic");
            assert_eq!(seen.outcome.number, 0, "a job of the benchmark is answered");
            self.samples += seen.samples;
            self.roots += seen.roots;
            self.marks.spoil();
            let Marks { sheet, copy } = &mut self.marks;
            assert!(rust.input().timed_marking(sheet, copy));
            assert!(sheet[..job.area()] == seen.sheet, "the marked build's sheet differs from the watched build's");
            let mut hold = |name: &str, plain: Option<Outcome>, marking: Marking| {
                its.spoil();
                for got in [plain, marking(job, &mut its.sheet, &mut its.copy)] {
                    let got = got.expect("its archive is linked");
                    assert!(oracle::same(&seen.outcome, &got), "{name}'s answer differs");
                }
                assert!(its == self.marks, "{name}'s sheet or copy differs");
            };
            hold("the port", port::refine(job), port::refine_marking);
            if against == Side::Before {
                hold("the port before", port::before::refine(job), port::before::refine_marking);
            }
        }
    }

    pub fn jobs(&self) -> u64 {
        self.jobs.len() as u64
    }

    /// Every job once.
    pub fn turn(&mut self, side: Side, marking: bool) {
        let Marks { sheet, copy } = &mut self.marks;
        match (side, marking) {
            (Side::Rust, false) => self.plain.iter().for_each(|p| {
                black_box(black_box(p.input()).timed());
            }),
            (Side::Rust, true) => self.marked.iter().for_each(|p| {
                black_box(black_box(p.input()).timed_marking(sheet, copy));
            }),
            (Side::Port, false) => self.jobs.iter().for_each(|job| {
                black_box(port::timed(black_box(job)));
            }),
            (Side::Port, true) => self.jobs.iter().for_each(|job| {
                black_box(port::timed_marking(black_box(job), sheet, copy));
            }),
            (Side::Before, false) => self.jobs.iter().for_each(|job| {
                black_box(port::before::timed(black_box(job)));
            }),
            (Side::Before, true) => self.jobs.iter().for_each(|job| {
                black_box(port::before::timed_marking(black_box(job), sheet, copy));
            }),
        }
    }

    /// Seconds that a turn takes, run so many times.
    pub fn seconds(&mut self, times: u32, side: Side, marking: bool) -> f64 {
        let start = clock();
        for _ in 0..times {
            self.turn(side, marking);
        }
        (clock() - start) / times as f64
    }

    /// How many turns take 5 milliseconds.
    pub fn enough(&mut self, side: Side, marking: bool) -> u32 {
        (0.005 / self.seconds(3, side, marking)).ceil() as u32
    }
}

#[repr(C)]
struct Time {
    seconds: i64,
    nanoseconds: i64,
}

extern "C" {
    fn clock_gettime(clock: i32, time: *mut Time) -> i32;
}

/// This thread's own seconds: the machine may have other work.
fn clock() -> f64 {
    const THREAD: i32 = 3;
    let mut t = Time { seconds: 0, nanoseconds: 0 };
    assert_eq!(unsafe { clock_gettime(THREAD, &mut t) }, 0);
    t.seconds as f64 + t.nanoseconds as f64 * 1e-9
}

pub fn median(mut v: Vec<f64>) -> f64 {
    v.sort_by(f64::total_cmp);
    v[v.len() / 2]
}

/// The median of what is made of times that were taken close together.
pub fn median_of(a: &[f64], b: &[f64], f: impl Fn(f64, f64) -> f64) -> f64 {
    median(a.iter().zip(b).map(|(a, b)| f(*a, *b)).collect())
}
