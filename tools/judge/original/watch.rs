//! What the watched build sees of a run: which pixels bore weight, and marks that a run leaves on its way.
use std::cell::{Cell, RefCell};

struct Sheet {
    width: usize,
    marks: Vec<u8>,
    reads: u64,
}

thread_local! {
    static SHEET: RefCell<Option<Sheet>> = const { RefCell::new(None) };
    /// Pixels beside or below a sample whose fraction there is 0.
    pub static WEIGHTLESS: Cell<u64> = const { Cell::new(0) };
    /// Square roots of refine.rs.
    pub static ROOTS: Cell<u64> = const { Cell::new(0) };
    /// Whether the last line fit that was begun is an edge's second.
    pub static SECOND_FIT: Cell<bool> = const { Cell::new(false) };
}

/// Begin a sheet of `width` x `height` pixels.
pub fn begin(width: usize, height: usize) {
    SHEET.with(|s| {
        *s.borrow_mut() = Some(Sheet {
            width,
            marks: vec![0; width * height],
            reads: 0,
        })
    });
}

/// End the sheet: a 1 for each pixel that bore weight, and how many bytes that did were read in all.
pub fn end() -> (Vec<u8>, u64) {
    SHEET.with(|s| {
        let sheet = s.borrow_mut().take().expect("a sheet was begun");
        (sheet.marks, sheet.reads)
    })
}

/// `Gray8View::get` reads this pixel.
#[inline]
pub fn pixel(x: usize, y: usize) {
    SHEET.with(|s| {
        if let Some(sheet) = s.borrow_mut().as_mut() {
            sheet.marks[y * sheet.width + x] = 1;
            sheet.reads += 1;
        }
    });
}

/// A sample has this byte beside or below it, and no weight for it.
pub fn weightless(byte: u8) -> u8 {
    WEIGHTLESS.with(|n| n.set(n.get() + 1));
    byte
}

/// refine.rs takes a square root.
pub fn root(x: f64) -> f64 {
    ROOTS.with(|n| n.set(n.get() + 1));
    x.sqrt()
}

/// refine.rs begins an edge's first or second fit.
pub fn second_fit(second: bool) {
    SECOND_FIT.with(|f| f.set(second));
}
