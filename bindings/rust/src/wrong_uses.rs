//! Uses that C leaves to the caller and that Rust's types rule out.
//!
//! Each is a program that must not compile, with the compiler's number for the reason where it has
//! one; behind it stands the same program with that one thing right, which does.
//!
//! # Sheet and copy in one buffer
//!
//! ```compile_fail,E0499
//! # use trufolmesca::{Grid, Photograph, Request, refine_corners_marking};
//! let (bytes, mut sheet) = ([0; 4], [0; 4]);
//! let request = Request::new(Photograph::new(&bytes, 2, 2), Grid::new(&[1; 441], 21), [[0.0; 2]; 4]);
//! let answer = refine_corners_marking(&request, &mut sheet, &mut sheet);
//! ```
//! ```
//! # use trufolmesca::{Grid, Photograph, Request, refine_corners_marking};
//! let (bytes, mut sheet, mut copy) = ([0; 4], [0; 4], [0; 4]);
//! let request = Request::new(Photograph::new(&bytes, 2, 2), Grid::new(&[1; 441], 21), [[0.0; 2]; 4]);
//! let answer = refine_corners_marking(&request, &mut sheet, &mut copy);
//! ```
//!
//! # A sheet that overlaps the copy
//!
//! ```compile_fail,E0499
//! # use trufolmesca::{Grid, Photograph, Request, refine_corners_marking};
//! let (bytes, mut both) = ([0; 4], [0; 8]);
//! let request = Request::new(Photograph::new(&bytes, 2, 2), Grid::new(&[1; 441], 21), [[0.0; 2]; 4]);
//! let answer = refine_corners_marking(&request, &mut both[..4], &mut both[3..]);
//! ```
//! ```
//! # use trufolmesca::{Grid, Photograph, Request, refine_corners_marking};
//! let (bytes, mut both) = ([0; 4], [0; 8]);
//! let request = Request::new(Photograph::new(&bytes, 2, 2), Grid::new(&[1; 441], 21), [[0.0; 2]; 4]);
//! let (sheet, copy) = both.split_at_mut(4);
//! let answer = refine_corners_marking(&request, sheet, copy);
//! ```
//!
//! # A sheet that is the photograph
//!
//! ```compile_fail,E0502
//! # use trufolmesca::{Grid, Photograph, Request, refine_corners_marking};
//! let (mut bytes, mut copy) = ([0; 4], [0; 4]);
//! let request = Request::new(Photograph::new(&bytes, 2, 2), Grid::new(&[1; 441], 21), [[0.0; 2]; 4]);
//! let answer = refine_corners_marking(&request, &mut bytes, &mut copy);
//! ```
//! ```
//! # use trufolmesca::{Grid, Photograph, Request, refine_corners_marking};
//! let (bytes, mut copy) = ([0; 4], [0; 4]);
//! let mut sheet = bytes;
//! let request = Request::new(Photograph::new(&bytes, 2, 2), Grid::new(&[1; 441], 21), [[0.0; 2]; 4]);
//! let answer = refine_corners_marking(&request, &mut sheet, &mut copy);
//! ```
//!
//! # A copy that is the grid
//!
//! ```compile_fail,E0502
//! # use trufolmesca::{Grid, Photograph, Request, refine_corners_marking};
//! let (mut modules, mut sheet) = ([1; 441], [0; 4]);
//! let request = Request::new(Photograph::new(&[0; 4], 2, 2), Grid::new(&modules, 21), [[0.0; 2]; 4]);
//! let answer = refine_corners_marking(&request, &mut sheet, &mut modules);
//! ```
//! ```
//! # use trufolmesca::{Grid, Photograph, Request, refine_corners_marking};
//! let (modules, mut sheet, mut copy) = ([1; 441], [0; 4], [0; 441]);
//! let request = Request::new(Photograph::new(&[0; 4], 2, 2), Grid::new(&modules, 21), [[0.0; 2]; 4]);
//! let answer = refine_corners_marking(&request, &mut sheet, &mut copy);
//! ```
//!
//! # A photograph that is written while it is lent
//!
//! ```compile_fail,E0506
//! # use trufolmesca::{Grid, Photograph, Request, refine_corners};
//! let mut bytes = [0; 4];
//! let request = Request::new(Photograph::new(&bytes, 2, 2), Grid::new(&[1; 441], 21), [[0.0; 2]; 4]);
//! bytes[0] = 1;
//! let answer = refine_corners(&request);
//! ```
//! ```
//! # use trufolmesca::{Grid, Photograph, Request, refine_corners};
//! let mut bytes = [0; 4];
//! bytes[0] = 1;
//! let request = Request::new(Photograph::new(&bytes, 2, 2), Grid::new(&[1; 441], 21), [[0.0; 2]; 4]);
//! let answer = refine_corners(&request);
//! ```
//!
//! # A photograph whose bytes are gone
//!
//! ```compile_fail,E0597
//! # use trufolmesca::{Border, Photograph, sample_bilinear};
//! let photograph = {
//!     let bytes = vec![0; 4];
//!     Photograph::new(&bytes, 2, 2)
//! };
//! let value = sample_bilinear(&photograph, [0.0, 0.0], Border::Clamp);
//! ```
//! ```
//! # use trufolmesca::{Border, Photograph, sample_bilinear};
//! let bytes = vec![0; 4];
//! let photograph = Photograph::new(&bytes, 2, 2);
//! let value = sample_bilinear(&photograph, [0.0, 0.0], Border::Clamp);
//! ```
//!
//! # A photograph whose bytes are given back before the call
//!
//! ```compile_fail,E0505
//! # use trufolmesca::{Border, Photograph, sample_bilinear};
//! let bytes = vec![0; 4];
//! let photograph = Photograph::new(&bytes, 2, 2);
//! drop(bytes);
//! let value = sample_bilinear(&photograph, [0.0, 0.0], Border::Clamp);
//! ```
//! ```
//! # use trufolmesca::{Border, Photograph, sample_bilinear};
//! let bytes = vec![0; 4];
//! let photograph = Photograph::new(&bytes, 2, 2);
//! let value = sample_bilinear(&photograph, [0.0, 0.0], Border::Clamp);
//! drop(bytes);
//! ```
//!
//! # A list that is null
//!
//! ```compile_fail,E0308
//! # use trufolmesca::fit_line_tls_weighted;
//! let line = fit_line_tls_weighted(std::ptr::null(), &[], &[]);
//! ```
//! ```
//! # use trufolmesca::fit_line_tls_weighted;
//! let line = fit_line_tls_weighted(&[], &[], &[]);
//! ```
//!
//! # A pointer without its length
//!
//! ```compile_fail,E0308
//! # use trufolmesca::Photograph;
//! let bytes = vec![0; 4];
//! let photograph = Photograph::new(bytes.as_ptr(), 2, 2);
//! ```
//! ```
//! # use trufolmesca::Photograph;
//! let bytes = vec![0; 4];
//! let photograph = Photograph::new(&bytes, 2, 2);
//! ```
//!
//! # Corners of which one is missing
//!
//! ```compile_fail,E0308
//! # use trufolmesca::Map;
//! let map = Map::square_to_quad(&[[0.0, 0.0], [1.0, 0.0], [1.0, 1.0]]);
//! ```
//! ```
//! # use trufolmesca::Map;
//! let map = Map::square_to_quad(&[[0.0, 0.0], [1.0, 0.0], [1.0, 1.0], [0.0, 1.0]]);
//! ```
//!
//! # A bool that is neither
//!
//! ```compile_fail,E0308
//! # use trufolmesca::{Grid, Photograph, Request};
//! let request = Request::new(Photograph::new(&[0; 4], 2, 2), Grid::new(&[1; 441], 21), [[0.0; 2]; 4]);
//! let inverted = request.with_inverted(2);
//! ```
//! ```compile_fail,E0054
//! # use trufolmesca::{Grid, Photograph, Request};
//! let request = Request::new(Photograph::new(&[0; 4], 2, 2), Grid::new(&[1; 441], 21), [[0.0; 2]; 4]);
//! let inverted = request.with_inverted(2 as bool);
//! ```
//! ```
//! # use trufolmesca::{Grid, Photograph, Request};
//! let request = Request::new(Photograph::new(&[0; 4], 2, 2), Grid::new(&[1; 441], 21), [[0.0; 2]; 4]);
//! let inverted = request.with_inverted(2 != 0);
//! ```
//!
//! # A result that is ignored
//!
//! ```compile_fail
//! #![deny(unused_must_use)]
//! # use trufolmesca::Map;
//! Map::square_to_quad(&[[0.0; 2]; 4]);
//! ```
//! ```compile_fail
//! #![deny(unused_must_use)]
//! # use trufolmesca::Map;
//! Map::scaled(2.0, 2.0).inverse();
//! ```
//! ```
//! #![deny(unused_must_use)]
//! # use trufolmesca::Map;
//! let _ = Map::square_to_quad(&[[0.0; 2]; 4]);
//! let _ = Map::scaled(2.0, 2.0).inverse();
//! ```
//!
//! # A scan that is smoothed to itself as its second buffer
//!
//! ```compile_fail,E0502
//! # use trufolmesca::smooth_to;
//! let mut scan = [1, 2, 3];
//! let smoothed = smooth_to(&scan, 3, &mut scan);
//! ```
//! ```
//! # use trufolmesca::smooth_over;
//! let mut scan = [1, 2, 3];
//! let smoothed = smooth_over(&mut scan, 3);
//! ```
//!
//! # A sheet that two threads write
//!
//! ```compile_fail,E0499
//! # use trufolmesca::{Grid, Photograph, Request, refine_corners_marking};
//! let (mut sheet, mut one, mut two) = ([0; 4], [0; 4], [0; 4]);
//! let request = Request::new(Photograph::new(&[0; 4], 2, 2), Grid::new(&[1; 441], 21), [[0.0; 2]; 4]);
//! std::thread::scope(|threads| {
//!     threads.spawn(|| refine_corners_marking(&request, &mut sheet, &mut one));
//!     threads.spawn(|| refine_corners_marking(&request, &mut sheet, &mut two));
//! });
//! ```
//! ```
//! # use trufolmesca::{Grid, Photograph, Request, refine_corners_marking};
//! let (mut sheet, mut other, mut one, mut two) = ([0; 4], [0; 4], [0; 4], [0; 4]);
//! let request = Request::new(Photograph::new(&[0; 4], 2, 2), Grid::new(&[1; 441], 21), [[0.0; 2]; 4]);
//! std::thread::scope(|threads| {
//!     threads.spawn(|| refine_corners_marking(&request, &mut sheet, &mut one));
//!     threads.spawn(|| refine_corners_marking(&request, &mut other, &mut two));
//! });
//! ```
//!
//! # A thread that may outlive the photograph
//!
//! ```compile_fail,E0373
//! # use trufolmesca::{Border, Photograph, sample_bilinear};
//! let bytes = vec![0; 4];
//! let thread = std::thread::spawn(|| sample_bilinear(&Photograph::new(&bytes, 2, 2), [0.0, 0.0], Border::Clamp));
//! ```
//! ```
//! # use trufolmesca::{Border, Photograph, sample_bilinear};
//! let bytes = vec![0; 4];
//! let thread = std::thread::spawn(move || sample_bilinear(&Photograph::new(&bytes, 2, 2), [0.0, 0.0], Border::Clamp));
//! ```
//!
//! # A refusal that is an answer's number
//!
//! ```compile_fail,E0423
//! # use trufolmesca::Refusal;
//! let refusal = Refusal(0);
//! ```
//! ```
//! # use trufolmesca::Refusal;
//! let refusal = Refusal::from_number(0);
//! assert_eq!(refusal, None);
//! ```
