//! A drawn label that the tests share: a dark square with soft edges, as in README.md.

use trufolmesca::{Answer, Grid, Photograph, Refusal, Request, refine_corners_marking};

/// Width and height of the picture.
pub const SIZE: usize = 104;

/// The picture, a byte a pixel; its corners are at 20.3 and 83.3.
pub fn picture() -> Vec<u8> {
    let behind = |edge: f64, at: usize| 1.0 / (1.0 + ((edge - at as f64) / 0.6).exp());
    let inside = |at: usize| behind(20.3, at) - behind(83.3, at);
    (0..SIZE * SIZE).map(|i| (230.0 - 200.0 * inside(i % SIZE) * inside(i / SIZE)) as u8).collect()
}

/// A request for its corners, from rough ones some tenths of a pixel off.
pub fn request(bytes: &[u8]) -> Request<'_> {
    let photograph = Photograph::new(bytes, SIZE as u32, SIZE as u32);
    let rough = [[20.0, 20.0], [84.0, 20.0], [84.0, 84.0], [20.0, 84.0]];
    Request::new(photograph, Grid::new(&[1; 21 * 21], 21), rough)
}

/// A refinement's result with the sheet and the copy that it leaves on buffers of sevens.
pub fn marked(request: &Request) -> (Result<Answer, Refusal>, Vec<u8>, Vec<u8>) {
    let (mut sheet, mut copy) = (vec![7; SIZE * SIZE], vec![7; SIZE * SIZE]);
    let result = refine_corners_marking(request, &mut sheet, &mut copy);
    (result, sheet, copy)
}
