//! Why a call gave no answer: its number, in words.

use std::fmt;

/// Why a call gave no answer: a number from 1 up, each with its constant and its sentence.
///
/// It is a number and not an `enum`, so that one of a later library is kept as it is. Its constants
/// can be matched:
///
/// ```
/// use trufolmesca::{Map, Refusal};
///
/// match Map::square_to_quad(&[[0.0, 0.0]; 4]) {
///     Ok(map) => println!("{:?}", map.map([0.5, 0.5])),
///     Err(refusal @ Refusal::QUAD) => assert_eq!(
///         refusal.to_string(),
///         "the rough corners are not the corners of a quadrilateral",
///     ),
///     Err(refusal) => panic!("refused by {}: {refusal}", refusal.number()),
/// }
/// ```
#[derive(Clone, Copy, PartialEq, Eq, PartialOrd, Ord, Hash)]
pub struct Refusal(u32);

/// Gives each number its constant, and the constant its sentence as documentation.
macro_rules! refusals {
    ($($number:literal $name:ident $words:literal)*) => {
        impl Refusal {
            $(#[doc = concat!($number, ": ", $words, ".")] pub const $name: Self = Self($number);)*
        }

        /// A number's sentence, where this version knows the number.
        fn words_of(number: u32) -> Option<&'static str> {
            match number {
                $($number => Some($words),)*
                _ => None,
            }
        }
    };
}

refusals! {
    1 SIZE "the picture is empty, or wider or higher than 16384 pixels"
    2 PHOTOGRAPH "the stride is wrong, or the pixels are fewer than width and height ask for"
    3 GRID "the grid is not a square of 2 to 177 rows of 0 and 1"
    4 SCALE "a scale is not a number above 0"
    5 CORNER "a rough corner is not a number, or lies far outside of any picture"
    6 LENS "the camera has a value that is not a number, or a focal length not above 0"
    7 SHEET "the sheet or the copy is smaller than the picture"
    8 QUAD "the rough corners are not the corners of a quadrilateral"
    9 THIN "fewer than two edges of the label were found: the rough corners may be more than \
        a quarter of a module off or in another order, or dark and light exchanged"
    10 LINE "the points found on an edge all lie in one place"
    11 OVERFLOW "the arithmetic left the range of numbers"
    12 CARD "the job card is malformed, or there is no room for the result card"
    13 POINTS "a line needs two points"
    14 PAIRING "the points and their weights differ in number"
    15 FINITE "a point or a weight is not a number"
    16 WEIGHT "a weight is below 0, or all weights are 0"
    17 OUTSIDE "the place lies outside of the picture"
    18 PARALLEL "the two lines are parallel"
    19 PROFILE "there is no edge along this profile"
    20 PLACE "the place has no counterpart in the photograph"
    21 WINDOW "the window is not an odd number from 3 to 31"
    22 ROOM "the smoothed scan does not fit where it is to be written"
    23 FORM "the result card is malformed, or of the other form"
    24 COUNT "a count is above 255, and the older form has no room for it"
    25 SETTINGS "a setting is out of its range or not finite"
}

impl Refusal {
    /// The refusal of a number, as a record may hold it; none for 0, which is an answer's.
    #[must_use]
    pub const fn from_number(number: u32) -> Option<Self> {
        match number {
            0 => None,
            number => Some(Self(number)),
        }
    }

    /// The number, which is never 0.
    #[must_use]
    pub const fn number(self) -> u32 {
        self.0
    }

    /// Whether a marking call that is refused so has written sheet and copy.
    ///
    /// A refusal by 1 to 7 or by 25 comes before any pixel is read, and leaves both as they were. Any
    /// other comes behind that: the first width × height bytes of both are written, as by an answer.
    ///
    /// ```
    /// use trufolmesca::Refusal;
    ///
    /// assert!(!Refusal::SHEET.marked());
    /// assert!(!Refusal::SETTINGS.marked());
    /// assert!(Refusal::QUAD.marked());
    /// ```
    #[must_use]
    pub const fn marked(self) -> bool {
        self.0 > Self::SHEET.0 && self.0 != Self::SETTINGS.0
    }
}

impl fmt::Display for Refusal {
    fn fmt(&self, f: &mut fmt::Formatter<'_>) -> fmt::Result {
        match words_of(self.0) {
            Some(words) => f.pad(words),
            None => write!(f, "number {}, which this version does not know", self.0),
        }
    }
}

/// Number and sentence, since this is what a `main` that returns a refusal prints.
impl fmt::Debug for Refusal {
    fn fmt(&self, f: &mut fmt::Formatter<'_>) -> fmt::Result {
        write!(f, "Refusal({}: {self})", self.0)
    }
}

impl std::error::Error for Refusal {}
