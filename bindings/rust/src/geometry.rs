//! Maps of the plane, lines and the root: the calls that read no picture.

use crate::{Refusal, raw};

/// A place: x to the right and y down. The centre of the first pixel is `[0.0, 0.0]`.
pub type Place = [f64; 2];

/// Four corners: top left, top right, bottom right, bottom left as the label is read.
pub type Quad = [Place; 4];

/// A perspective map of the plane: a11, a21, a31, a12, a22, a32, a13, a23, a33.
///
/// It sends u, v to (a11 u + a21 v + a31) / w, (a12 u + a22 v + a32) / w, where w is
/// a13 u + a23 v + a33.
///
/// ```
/// use trufolmesca::{Map, Refusal};
///
/// let corners = [[10.0, 10.0], [30.0, 10.0], [30.0, 50.0], [10.0, 50.0]];
/// let label = Map::square_to_quad(&corners)?;
/// assert_eq!(label.map([0.5, 0.5]), [20.0, 30.0]);
/// assert_eq!(label.inverse().map([30.0, 50.0]), [1.0, 1.0]);
/// assert_eq!(Map::scaled(0.25, 0.5).then(&label).map([4.0, 2.0]), [30.0, 50.0]);
/// # Ok::<(), Refusal>(())
/// ```
#[derive(Clone, Copy, Debug, PartialEq)]
pub struct Map(pub [f64; 9]);

impl Map {
    /// The map of the unit square to four corners, which may be refused by [`Refusal::QUAD`].
    #[doc(alias = "trufolmesca_square_to_quad")]
    pub fn square_to_quad(corners: &Quad) -> Result<Self, Refusal> {
        raw::square_to_quad(corners).answer().map(Self)
    }

    /// The map of one quad to another, which may be refused by [`Refusal::QUAD`].
    #[doc(alias = "trufolmesca_quad_to_quad")]
    pub fn quad_to_quad(from: &Quad, to: &Quad) -> Result<Self, Refusal> {
        raw::quad_to_quad(from, to).answer().map(Self)
    }

    /// The map that scales by sx and sy.
    #[doc(alias = "trufolmesca_scaled")]
    #[must_use]
    pub fn scaled(sx: f64, sy: f64) -> Self {
        Self(raw::scaled(sx, sy))
    }

    /// Where the map sends a place.
    #[doc(alias = "trufolmesca_map")]
    #[must_use]
    pub fn map(&self, place: Place) -> Place {
        raw::map(self, place)
    }

    /// The inverse up to a factor, which sends each place back to where it came from.
    #[doc(alias = "trufolmesca_inverse")]
    #[must_use]
    pub fn inverse(&self) -> Self {
        Self(raw::inverse(self))
    }

    /// The map that does this one first and then the outer.
    #[doc(alias = "trufolmesca_then")]
    #[must_use]
    pub fn then(&self, outer: &Self) -> Self {
        Self(raw::then(self, outer))
    }
}

/// A line.
#[derive(Clone, Copy, Debug, PartialEq)]
pub struct Line {
    /// A place on it: the weighted centroid of the points that it was fitted to.
    pub centroid: Place,
    /// Its direction, of length 1 where it was fitted.
    pub direction: [f64; 2],
}

/// The line through weighted points by total least squares; x, y and weights are lists of one length.
///
/// It is refused by [`Refusal::POINTS`], [`PAIRING`](Refusal::PAIRING), [`FINITE`](Refusal::FINITE),
/// [`WEIGHT`](Refusal::WEIGHT), [`LINE`](Refusal::LINE) or [`OVERFLOW`](Refusal::OVERFLOW).
///
/// ```
/// use trufolmesca::{Refusal, fit_line_tls_weighted, intersect_lines};
///
/// let level = fit_line_tls_weighted(&[0.0, 1.0, 2.0], &[5.0, 5.0, 5.0], &[1.0, 2.0, 1.0])?;
/// assert_eq!((level.centroid, level.direction), ([1.0, 5.0], [1.0, 0.0]));
///
/// let upright = fit_line_tls_weighted(&[7.0, 7.0], &[0.0, 9.0], &[1.0, 1.0])?;
/// assert_eq!(intersect_lines(&level, &upright)?, [7.0, 5.0]);
/// assert_eq!(intersect_lines(&level, &level), Err(Refusal::PARALLEL));
/// # Ok::<(), Refusal>(())
/// ```
#[doc(alias = "trufolmesca_fit_line_tls_weighted")]
pub fn fit_line_tls_weighted(xs: &[f64], ys: &[f64], weights: &[f64]) -> Result<Line, Refusal> {
    let [x, y, dx, dy] = raw::fit_line_tls_weighted(xs, ys, weights).answer()?;
    Ok(Line { centroid: [x, y], direction: [dx, dy] })
}

/// Where two lines cross, as a place on the first; refused by [`Refusal::PARALLEL`].
#[doc(alias = "trufolmesca_intersect_lines")]
pub fn intersect_lines(a: &Line, b: &Line) -> Result<Place, Refusal> {
    raw::intersect_lines(a, b).answer()
}

/// The square root, rounded once.
///
/// ```
/// assert_eq!(trufolmesca::sqrt(2.0), 2.0_f64.sqrt());
/// assert!(trufolmesca::sqrt(-1.0).is_nan());
/// ```
#[doc(alias = "trufolmesca_sqrt")]
#[must_use]
pub fn sqrt(x: f64) -> f64 {
    crate::ffi::trufolmesca_sqrt(x)
}
