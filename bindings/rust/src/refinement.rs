//! The refinement of a label's corners, marked or not.

use std::fmt;

use crate::{Camera, Photograph, Place, Quad, Refusal, Settings, raw};

/// A label's modules as they were read, lent to a call: a byte a module by rows, 1 dark and 0 light.
#[derive(Clone, Copy)]
pub struct Grid<'a> {
    /// The rows.
    pub modules: &'a [u8],
    /// Modules in a row, and rows.
    pub dim: u32,
}

impl<'a> Grid<'a> {
    /// A grid of `dim` rows of `dim` modules.
    #[must_use]
    pub const fn new(modules: &'a [u8], dim: u32) -> Self {
        Self { modules, dim }
    }
}

/// Its sizes alone, since a label has up to 31,329 modules.
impl fmt::Debug for Grid<'_> {
    fn fmt(&self, f: &mut fmt::Formatter<'_>) -> fmt::Result {
        f.debug_struct("Grid")
            .field("modules", &format_args!("[{} bytes]", self.modules.len()))
            .field("dim", &self.dim)
            .finish()
    }
}

/// What a refinement is asked for: made by [`Request::new`], and changed by its fields or by `with_..`.
#[derive(Clone, Copy, Debug)]
#[non_exhaustive]
pub struct Request<'a> {
    /// The photograph.
    pub photograph: Photograph<'a>,
    /// The label's modules.
    pub grid: Grid<'a>,
    /// The rough corners in working pixels, within a quarter of a module of the label's.
    pub corners: Quad,
    /// Working pixels for each source pixel along x and y, or with a camera for each rectified pixel;
    /// 1 where none is given.
    pub scale: [f64; 2],
    /// Whether the label is light on dark; not where nothing is given.
    pub inverted: bool,
    /// The camera through which the photograph is seen, if any.
    pub camera: Option<Camera>,
    /// The numbers that the refinement goes by, if others than the default ones.
    pub settings: Option<Settings>,
}

impl<'a> Request<'a> {
    /// A label dark on light, its rough corners in the photograph's own pixels, without a camera, under
    /// the default settings.
    #[must_use]
    pub const fn new(photograph: Photograph<'a>, grid: Grid<'a>, corners: Quad) -> Self {
        Self { photograph, grid, corners, scale: [1.0, 1.0], inverted: false, camera: None, settings: None }
    }

    /// The same at another scale.
    #[must_use]
    pub const fn with_scale(self, scale: [f64; 2]) -> Self {
        Self { scale, ..self }
    }

    /// The same in this polarity.
    #[must_use]
    pub const fn with_inverted(self, inverted: bool) -> Self {
        Self { inverted, ..self }
    }

    /// The same through a camera.
    #[must_use]
    pub const fn with_camera(self, camera: Camera) -> Self {
        Self { camera: Some(camera), ..self }
    }

    /// The same under settings.
    #[must_use]
    pub const fn with_settings(self, settings: Settings) -> Self {
        Self { settings: Some(settings), ..self }
    }
}

/// What was found of one edge of the label.
#[derive(Clone, Copy, Debug, PartialEq, Eq)]
pub struct Edge {
    /// Points that were looked for.
    pub probed: u32,
    /// Points in its line.
    pub fit: u32,
    /// Points found that its line leaves out.
    pub dropped: u32,
    /// Whether it has a line.
    pub valid: bool,
}

/// A refinement's answer. Corners, and edges from each corner to the next, go as in [`Quad`].
#[derive(Clone, Copy, Debug, PartialEq)]
pub struct Answer {
    /// In source pixels, which are the photograph's; through a camera in rectified pixels, and
    /// [`rectified_to_source`](crate::rectified_to_source) gives where each lies in the photograph.
    pub corners: [Place; 4],
    /// Which corners were refined; another is where it was before.
    pub refined: [bool; 4],
    /// What was found of the edges.
    pub edges: [Edge; 4],
}

/// A label's corners, refined on the photograph or through the request's camera, under the request's
/// settings.
///
/// It is refused by a number from 1 to 6 where the request is wrong, by [`Refusal::SETTINGS`] where
/// its settings are, by [`Refusal::QUAD`] or
/// [`THIN`](Refusal::THIN), or by the number of an edge, [`LINE`](Refusal::LINE) or
/// [`OVERFLOW`](Refusal::OVERFLOW).
///
/// ```
/// use trufolmesca::{Grid, Photograph, Refusal, Request, refine_corners};
///
/// // Nothing but grey: no edge of a label is there.
/// let request = Request::new(
///     Photograph::new(&[128; 64 * 64], 64, 64),
///     Grid::new(&[1; 21 * 21], 21),
///     [[11.0, 11.0], [53.0, 11.0], [53.0, 53.0], [11.0, 53.0]],
/// );
/// assert_eq!(refine_corners(&request), Err(Refusal::THIN));
/// assert_eq!(refine_corners(&request.with_scale([0.0, 1.0])), Err(Refusal::SCALE));
/// ```
#[doc(alias = "trufolmesca_refine_corners")]
#[doc(alias = "trufolmesca_refine_corners_mapped")]
#[doc(alias = "trufolmesca_refine_corners_with")]
pub fn refine_corners(request: &Request) -> Result<Answer, Refusal> {
    raw::refine_corners(request).answer()
}

/// The same, with the sheet of what was read and the blanked copy, both in rows of `width` bytes.
///
/// The sheet has a 1 at each pixel of the photograph that was read and 0 elsewhere; the copy is the
/// photograph with 0 at each pixel that was not read. A sheet or a copy of fewer than width × height
/// bytes is refused by [`Refusal::SHEET`], behind the numbers 1 to 6 and [`Refusal::SETTINGS`]; bytes
/// behind those stay.
///
/// An answer has written both. So has a refusal that came behind the reading, which
/// [`Refusal::marked`] tells; any other left both as they were.
///
/// ```
/// use trufolmesca::{Grid, Photograph, Refusal, Request, refine_corners_marking};
///
/// let request = Request::new(
///     Photograph::new(&[128; 64 * 64], 64, 64),
///     Grid::new(&[1; 21 * 21], 21),
///     [[11.0, 11.0], [53.0, 11.0], [53.0, 53.0], [11.0, 53.0]],
/// );
/// let (mut sheet, mut copy) = ([7; 64 * 64], [7; 64 * 64]);
///
/// let refusal = refine_corners_marking(&request, &mut sheet, &mut copy[..10]).unwrap_err();
/// assert!(refusal == Refusal::SHEET && !refusal.marked());
/// assert_eq!((sheet, copy), ([7; 64 * 64], [7; 64 * 64]));
///
/// let refusal = refine_corners_marking(&request, &mut sheet, &mut copy).unwrap_err();
/// assert!(refusal == Refusal::THIN && refusal.marked());
/// for (mark, byte) in sheet.iter().zip(copy) {
///     assert_eq!(byte, 128 * mark);
/// }
/// ```
#[doc(alias = "trufolmesca_refine_corners_marking")]
#[doc(alias = "trufolmesca_refine_corners_mapped_marking")]
#[doc(alias = "trufolmesca_refine_corners_marking_with")]
pub fn refine_corners_marking(
    request: &Request,
    sheet: &mut [u8],
    copy: &mut [u8],
) -> Result<Answer, Refusal> {
    raw::refine_corners_marking(request, sheet, copy).answer()
}
