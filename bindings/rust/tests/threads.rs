//! Threads: what may go to them and be shared among them, and calls at once.

mod drawn;

use std::thread;

use trufolmesca::*;

/// Compiles for types that may be sent to a thread and shared among threads.
fn of_all_threads<T: Send + Sync>() {}

#[test]
fn lists_and_answers_go_to_all_threads() {
    of_all_threads::<Request<'_>>();
    of_all_threads::<(Photograph<'_>, Grid<'_>, Camera, Settings, Border, Aim)>();
    of_all_threads::<(EdgePoint, Line, Map)>();
    of_all_threads::<Result<Answer, Refusal>>();
    of_all_threads::<raw::Written<Answer>>();
}

#[test]
fn threads_that_share_a_photograph_come_to_the_same() {
    let bytes = drawn::picture();
    let request = drawn::request(&bytes);
    let alone = drawn::marked(&request);
    thread::scope(|threads| {
        for _ in 0..4 {
            threads.spawn(|| {
                for _ in 0..20 {
                    assert!(drawn::marked(&request) == alone);
                }
            });
        }
    });
}

#[test]
fn a_thread_of_a_small_stack_is_enough() {
    let bytes = drawn::picture();
    let plain = Intrinsics { fx: 100.0, fy: 100.0, cx: 52.0, cy: 52.0 };
    let lens = Lens::Fisheye { k1: 0.333, k2: 0.133, k3: 0.054, k4: 0.02 };
    let camera = Camera { source: plain, rectified: plain, lens: Some(lens) };
    let request = drawn::request(&bytes).with_camera(camera);
    thread::scope(|threads| {
        let small = thread::Builder::new().stack_size(32 * 1024);
        let thread = small.spawn_scoped(threads, || drawn::marked(&request));
        assert!(thread.unwrap().join().unwrap().0.is_ok());
    });
}
