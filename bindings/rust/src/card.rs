//! Cards: a request and an answer in bytes, field by field.

use crate::{Refusal, raw};

/// The bytes of a result card.
pub const RESULT_CARD_SIZE: usize = 105;

/// The bytes of a result card in the older form, whose counts have a byte each.
pub const OLDER_RESULT_CARD_SIZE: usize = 93;

/// Runs a job card: the refinement that it asks for, without marking, its answer as a result card.
///
/// It is refused by [`Refusal::CARD`] where the job card is malformed, and then as
/// [`refine_corners`](crate::refine_corners) is.
///
/// ```
/// use trufolmesca::{Refusal, run_card};
///
/// assert_eq!(run_card(b"no job card"), Err(Refusal::CARD));
/// ```
#[doc(alias = "trufolmesca_run_card")]
pub fn run_card(card: &[u8]) -> Result<[u8; RESULT_CARD_SIZE], Refusal> {
    written(|out| raw::run_card(card, out))
}

/// A result card in the older form, made one of today's; nothing is lost.
///
/// It is refused by [`Refusal::FORM`] where the card is none of the older form.
///
/// ```
/// use trufolmesca::{narrow_result_card, widen_result_card};
///
/// // No corners, no counts and no flags: three fields of zeros.
/// let mut older = [0; 93];
/// (older[0], older[1]) = (16, 64);
/// (older[67], older[68]) = (17, 16);
/// (older[86], older[87]) = (18, 4);
/// let newer = widen_result_card(&older)?;
/// assert_eq!(newer[67..70], [19, 28, 0]);
/// assert_eq!(narrow_result_card(&newer)?, older);
/// # Ok::<(), trufolmesca::Refusal>(())
/// ```
#[doc(alias = "trufolmesca_widen_result_card")]
pub fn widen_result_card(card: &[u8]) -> Result<[u8; RESULT_CARD_SIZE], Refusal> {
    written(|out| raw::widen_result_card(card, out))
}

/// A result card, made one in the older form: the bytes that [`widen_result_card`] was given.
///
/// It is refused by [`Refusal::FORM`] where the card is none of today's form, and then by
/// [`Refusal::COUNT`] where a count is above 255.
#[doc(alias = "trufolmesca_narrow_result_card")]
pub fn narrow_result_card(card: &[u8]) -> Result<[u8; OLDER_RESULT_CARD_SIZE], Refusal> {
    written(|out| raw::narrow_result_card(card, out))
}

/// The card that a call wrote to a buffer of its size.
fn written<const N: usize>(call: impl FnOnce(&mut [u8; N]) -> u32) -> Result<[u8; N], Refusal> {
    let mut out = [0; N];
    Refusal::from_number(call(&mut out)).map_or(Ok(out), Err)
}
