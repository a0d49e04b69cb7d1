//! Smoothing of a scan: a rim profile as heights in whole units, in the order of the scan.

use crate::{Refusal, raw};

/// Smooths a scan to a second buffer, whose heights behind the scan's stay as they were.
///
/// Each height becomes the mean, rounded down, of the `window` heights around it, or of those among
/// them that the scan has. It is refused by [`Refusal::WINDOW`] where the window is even, below 3
/// or above 31, then by [`Refusal::ROOM`] where the buffer is shorter than the scan; both write
/// nothing.
///
/// ```
/// use trufolmesca::{Refusal, smooth_over, smooth_to};
///
/// let mut scan = [10, 10, 40, 10, 11];
/// let mut smoothed = [0; 6];
/// smooth_to(&scan, 3, &mut smoothed)?;
/// assert_eq!(smoothed, [10, 20, 20, 20, 10, 0]);
///
/// smooth_over(&mut scan, 3)?;
/// assert_eq!(scan, smoothed[..5]);
///
/// assert_eq!(smooth_to(&scan, 4, &mut smoothed), Err(Refusal::WINDOW));
/// assert_eq!(smooth_to(&scan, 3, &mut smoothed[..4]), Err(Refusal::ROOM));
/// # Ok::<(), Refusal>(())
/// ```
#[doc(alias = "trufolmesca_smooth_to")]
pub fn smooth_to(scan: &[u16], window: u32, out: &mut [u16]) -> Result<(), Refusal> {
    Refusal::from_number(raw::smooth_to(scan, window, out)).map_or(Ok(()), Err)
}

/// Smooths a scan over itself: the heights that [`smooth_to`] gives, and no second buffer.
///
/// It is refused by [`Refusal::WINDOW`], which leaves the scan as it was.
#[doc(alias = "trufolmesca_smooth_over")]
pub fn smooth_over(scan: &mut [u16], window: u32) -> Result<(), Refusal> {
    Refusal::from_number(raw::smooth_over(scan, window)).map_or(Ok(()), Err)
}
