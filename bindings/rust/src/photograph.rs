//! Photographs and cameras as the calls take them, and the calls that read one place or profile.

use std::fmt;

use crate::{Place, Refusal, Settings, raw};

/// A grey photograph that is lent to a call: a byte a pixel, by rows of `stride` bytes.
#[derive(Clone, Copy)]
pub struct Photograph<'a> {
    /// The rows; bytes behind a row's `width` are not read.
    pub bytes: &'a [u8],
    /// Pixels in a row.
    pub width: u32,
    /// Rows.
    pub height: u32,
    /// Bytes from the start of a row to the start of the next.
    pub stride: u32,
}

impl<'a> Photograph<'a> {
    /// A photograph whose rows follow each other without a gap.
    #[must_use]
    pub const fn new(bytes: &'a [u8], width: u32, height: u32) -> Self {
        Self { bytes, width, height, stride: width }
    }

    /// The same bytes by rows of another stride.
    #[must_use]
    pub const fn with_stride(self, stride: u32) -> Self {
        Self { stride, ..self }
    }
}

/// Its sizes alone, since the bytes would fill many pages.
impl fmt::Debug for Photograph<'_> {
    fn fmt(&self, f: &mut fmt::Formatter<'_>) -> fmt::Result {
        f.debug_struct("Photograph")
            .field("bytes", &format_args!("[{} bytes]", self.bytes.len()))
            .field("width", &self.width)
            .field("height", &self.height)
            .field("stride", &self.stride)
            .finish()
    }
}

/// Focal lengths and principal point of a camera, in pixels.
#[derive(Clone, Copy, Debug, PartialEq)]
pub struct Intrinsics {
    /// The focal length along x, above 0.
    pub fx: f64,
    /// The focal length along y, above 0.
    pub fy: f64,
    /// The principal point's x.
    pub cx: f64,
    /// The principal point's y.
    pub cy: f64,
}

/// How a lens bends the picture, by one of OpenCV's models and in its order.
#[derive(Clone, Copy, Debug, PartialEq)]
pub enum Lens {
    /// Brown and Conrady's, of most lenses.
    BrownConrady {
        /// Radial, of the second power.
        k1: f64,
        /// Radial, of the fourth power.
        k2: f64,
        /// Tangential.
        p1: f64,
        /// Tangential.
        p2: f64,
        /// Radial, of the sixth power.
        k3: f64,
    },
    /// That of fisheye lenses, by powers of the angle with the axis; of four zeros it is the
    /// equidistant one.
    Fisheye {
        /// Of the third power.
        k1: f64,
        /// Of the fifth power.
        k2: f64,
        /// Of the seventh power.
        k3: f64,
        /// Of the ninth power.
        k4: f64,
    },
}

/// A camera: that of the photograph, that of the picture it is rectified to, and the lens.
#[derive(Clone, Copy, Debug, PartialEq)]
pub struct Camera {
    /// Of the photograph, the source.
    pub source: Intrinsics,
    /// Of the rectified picture, which is without the lens's distortion.
    pub rectified: Intrinsics,
    /// The lens, where it distorts.
    pub lens: Option<Lens>,
}

/// What a sample outside of the photograph does.
#[derive(Clone, Copy, Debug, PartialEq, Eq)]
pub enum Border {
    /// It is refused by [`Refusal::OUTSIDE`].
    Reject,
    /// It takes the nearest place inside.
    Clamp,
    /// It is answered with this value.
    Constant(u8),
}

/// Where an edge point is looked for. Through a camera place and normal are in rectified pixels.
#[derive(Clone, Copy, Debug, PartialEq)]
pub struct Aim {
    /// A place near the edge.
    pub coarse: Place,
    /// The edge's normal, out of the label.
    pub normal: [f64; 2],
    /// How far apart the profile's samples are: half a module.
    pub step: f64,
    /// Whether the label is light on dark.
    pub inverted: bool,
    /// Whether the module behind the edge's own, further into the label, is light.
    pub inward_differs: bool,
}

/// A point on an edge.
#[derive(Clone, Copy, Debug, PartialEq)]
pub struct EdgePoint {
    /// In source pixels, which are the photograph's; through a camera in rectified pixels.
    pub place: Place,
    /// How much it counts in the edge's line.
    pub weight: f64,
}

/// The value of a photograph at a place, between its four nearest pixels.
///
/// It is refused by [`Refusal::SIZE`] or [`PHOTOGRAPH`](Refusal::PHOTOGRAPH), then by
/// [`OUTSIDE`](Refusal::OUTSIDE): a place that is no number under every border, any other place
/// outside under [`Border::Reject`].
///
/// ```
/// use trufolmesca::{Border, Photograph, Refusal, sample_bilinear};
///
/// let photograph = Photograph::new(&[0, 100, 200, 100], 2, 2);
/// assert_eq!(sample_bilinear(&photograph, [0.5, 0.0], Border::Reject), Ok(50.0));
/// assert_eq!(sample_bilinear(&photograph, [0.0, 7.0], Border::Reject), Err(Refusal::OUTSIDE));
/// assert_eq!(sample_bilinear(&photograph, [0.0, 7.0], Border::Clamp), Ok(200.0));
/// assert_eq!(sample_bilinear(&photograph, [0.0, 7.0], Border::Constant(9)), Ok(9.0));
/// ```
#[doc(alias = "trufolmesca_sample_bilinear")]
pub fn sample_bilinear(photograph: &Photograph, place: Place, border: Border) -> Result<f64, Refusal> {
    let [value] = raw::sample_bilinear(photograph, place, border).answer()?;
    Ok(value)
}

/// Where a place of the rectified picture lies in the photograph, as a corner that was refined
/// through this camera.
///
/// It is refused by [`Refusal::LENS`] or [`PLACE`](Refusal::PLACE).
///
/// ```
/// use trufolmesca::{Camera, Intrinsics, Lens, Refusal, rectified_to_source};
///
/// let source = Intrinsics { fx: 100.0, fy: 100.0, cx: 50.0, cy: 40.0 };
/// let lens = Lens::BrownConrady { k1: 0.1, k2: 0.0, p1: 0.0, p2: 0.0, k3: 0.0 };
/// let camera = Camera { source, rectified: source, lens: Some(lens) };
/// assert_eq!(rectified_to_source(&camera, [50.0, 40.0]), Ok([50.0, 40.0]));
/// assert_eq!(rectified_to_source(&camera, [150.0, 40.0]), Ok([160.0, 40.0]));
/// assert_eq!(rectified_to_source(&camera, [f64::NAN, 40.0]), Err(Refusal::PLACE));
///
/// // An eighth of a full turn from the axis is that far from the middle, in focal lengths.
/// let equidistant = Lens::Fisheye { k1: 0.0, k2: 0.0, k3: 0.0, k4: 0.0 };
/// let [x, _] = rectified_to_source(&Camera { lens: Some(equidistant), ..camera }, [150.0, 40.0])?;
/// assert!((x - 50.0 - 100.0 * std::f64::consts::FRAC_PI_4).abs() < 1e-9);
/// # Ok::<(), Refusal>(())
/// ```
#[doc(alias = "trufolmesca_rectified_to_source")]
pub fn rectified_to_source(camera: &Camera, place: Place) -> Result<Place, Refusal> {
    raw::rectified_to_source(camera, place).answer()
}

/// The point of an edge along its normal, on the photograph or through a camera.
///
/// It is refused by [`Refusal::SIZE`] or [`PHOTOGRAPH`](Refusal::PHOTOGRAPH), by
/// [`LENS`](Refusal::LENS), or by [`PROFILE`](Refusal::PROFILE).
///
/// ```
/// use trufolmesca::{Aim, Photograph, Refusal, localize_edge_point};
///
/// // Dark on the left, light on the right, with a soft edge between columns 9 and 10.
/// let row = [20, 20, 20, 20, 20, 20, 20, 20, 20, 70, 170, 220, 220, 220, 220, 220, 220, 220, 220, 220];
/// let bytes = [row; 5].concat();
/// let photograph = Photograph::new(&bytes, 20, 5);
/// let aim = Aim { coarse: [9.0, 2.0], normal: [1.0, 0.0], step: 1.5, inverted: false, inward_differs: false };
/// let point = localize_edge_point(&photograph, None, &aim)?;
/// assert!((point.place[0] - 9.5).abs() < 0.1 && point.weight > 0.0);
///
/// let away = Aim { coarse: [4.0, 2.0], step: 0.5, ..aim };
/// assert_eq!(localize_edge_point(&photograph, None, &away), Err(Refusal::PROFILE));
/// # Ok::<(), Refusal>(())
/// ```
#[doc(alias = "trufolmesca_localize_edge_point")]
#[doc(alias = "trufolmesca_localize_edge_point_mapped")]
pub fn localize_edge_point(
    photograph: &Photograph,
    camera: Option<&Camera>,
    aim: &Aim,
) -> Result<EdgePoint, Refusal> {
    let [x, y, weight] = raw::localize_edge_point(photograph, camera, aim).answer()?;
    Ok(EdgePoint { place: [x, y], weight })
}

/// The same under settings, of which all are tested and the contrast floor alone counts.
///
/// It is refused as [`localize_edge_point`] is, and by [`Refusal::SETTINGS`] before
/// [`PROFILE`](Refusal::PROFILE).
///
/// ```
/// use trufolmesca::{Aim, Photograph, Refusal, Settings, localize_edge_point, localize_edge_point_with};
///
/// // From 100 to 109 grey levels, with a soft edge between columns 9 and 10.
/// let row = [100, 100, 100, 100, 100, 100, 100, 100, 101, 103, 106, 108, 109, 109, 109, 109, 109, 109];
/// let bytes = [row; 5].concat();
/// let photograph = Photograph::new(&bytes, 18, 5);
/// let aim = Aim { coarse: [9.0, 2.0], normal: [1.0, 0.0], step: 1.5, inverted: false, inward_differs: false };
/// assert_eq!(localize_edge_point(&photograph, None, &aim), Err(Refusal::PROFILE));
///
/// let mut settings = Settings { contrast_floor: 6, ..Settings::default() };
/// let point = localize_edge_point_with(&photograph, None, &aim, &settings)?;
/// assert!((point.place[0] - 9.5).abs() < 0.1);
///
/// settings.contrast_floor = 0;
/// assert_eq!(localize_edge_point_with(&photograph, None, &aim, &settings), Err(Refusal::SETTINGS));
/// # Ok::<(), Refusal>(())
/// ```
#[doc(alias = "trufolmesca_localize_edge_point_with")]
pub fn localize_edge_point_with(
    photograph: &Photograph,
    camera: Option<&Camera>,
    aim: &Aim,
    settings: &Settings,
) -> Result<EdgePoint, Refusal> {
    let list = raw::settings_list(settings);
    let [x, y, weight] = raw::localize_edge_point_with(photograph, camera, aim, &list).answer()?;
    Ok(EdgePoint { place: [x, y], weight })
}
