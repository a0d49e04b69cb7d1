//! The least that gives the Rust a marking run: in the marked build `Gray8View::get` also writes a 1 on a sheet, and is
//! asked for no pixel that bears no weight.
//! One run at a time, on one thread, since nothing is locked.
use crate::Gray8View;

static mut SHEET: *mut u8 = std::ptr::null_mut();

/// `Gray8View::get` reads this pixel, counted by rows of the view's width.
#[inline(always)]
pub fn pixel(place: usize) {
    // Inside `marked` the sheet has the view's pixels; outside the pointer is null.
    unsafe { *SHEET.add(place) = 1 }
}

/// Run over a view with a cleared sheet, and make the copy after it.
pub fn marked<T>(view: &Gray8View, sheet: &mut [u8], copy: &mut [u8], run: impl FnOnce() -> T) -> T {
    let n = view.width() * view.height();
    sheet[..n].fill(0);
    unsafe { SHEET = sheet.as_mut_ptr() };
    let end = run();
    unsafe { SHEET = std::ptr::null_mut() };
    blank(view, &sheet[..n], &mut copy[..n]);
    end
}

/// The photograph's bytes where the sheet has a 1, else 0.
fn blank(view: &Gray8View, sheet: &[u8], copy: &mut [u8]) {
    let rows = copy.chunks_exact_mut(view.width()).zip(sheet.chunks_exact(view.width()));
    for (y, (copy, sheet)) in rows.enumerate() {
        for ((c, &s), &p) in copy.iter_mut().zip(sheet).zip(view.row(y)) {
            *c = if s == 1 { p } else { 0 };
        }
    }
}
