//! The numbers that a refinement goes by.

/// The numbers that a refinement goes by, where it is to be by others than the default ones.
///
/// Both ends of a range belong to it. Settings with a number out of its range, or with one that is
/// not finite, are refused by [`Refusal::SETTINGS`](crate::Refusal::SETTINGS).
///
/// ```
/// use trufolmesca::{Grid, Photograph, Refusal, Request, Settings, refine_corners};
///
/// // A label in the glare: dark and light differ by 9 grey levels.
/// let dark = |at: usize| (20..84).contains(&(at % 104)) && (20..84).contains(&(at / 104));
/// let bytes: Vec<u8> = (0..104 * 104).map(|at| if dark(at) { 100 } else { 109 }).collect();
/// let rough = [[19.5, 19.5], [83.5, 19.5], [83.5, 83.5], [19.5, 83.5]];
/// let request = Request::new(Photograph::new(&bytes, 104, 104), Grid::new(&[1; 21 * 21], 21), rough);
/// assert_eq!(refine_corners(&request), Err(Refusal::THIN));
///
/// let mut settings = Settings { contrast_floor: 6, ..Settings::default() };
/// let answer = refine_corners(&request.with_settings(settings))?;
/// assert_eq!(answer.refined, [true; 4]);
///
/// settings.rounds = 5;
/// assert_eq!(refine_corners(&request.with_settings(settings)), Err(Refusal::SETTINGS));
/// # Ok::<(), Refusal>(())
/// ```
#[derive(Clone, Copy, Debug, PartialEq)]
pub struct Settings {
    /// Where in each dark module at the label's rim the first of its two probes stands: 0 to 1, by
    /// default 0.35.
    pub probe_fraction_first: f64,
    /// Where in it the second stands: 0 to 1, by default 0.7.
    pub probe_fraction_second: f64,
    /// The modules without probes at each end of an edge: 1 to 10, by default 1.5.
    pub edge_margin_modules: f64,
    /// The most probes of an edge: 1 to 354, by default 64.
    pub max_points_per_edge: u32,
    /// The least points of an edge's line: 2 to 354, by default 6.
    pub min_edge_points: u32,
    /// How many grey levels dark and light differ by at least where a probe finds its point: 1 to 255,
    /// by default 12.
    pub contrast_floor: u32,
    /// A point is an outlier where its distance from the line is above so many modules, 0 to 100, by
    /// default 0.15, and above [`outlier_median_multiplier`](Self::outlier_median_multiplier) too.
    pub outlier_floor_modules: f64,
    /// So many times the median distance: 0 to 100, by default 2.
    pub outlier_median_multiplier: f64,
    /// The rounds, each from the corners of the last: 1 to 4, by default 2.
    pub rounds: u32,
}

/// The numbers of a refinement for which none are given.
impl Default for Settings {
    fn default() -> Self {
        Self {
            probe_fraction_first: 0.35,
            probe_fraction_second: 0.7,
            edge_margin_modules: 1.5,
            max_points_per_edge: 64,
            min_edge_points: 6,
            contrast_floor: 12,
            outlier_floor_modules: 0.15,
            outlier_median_multiplier: 2.0,
            rounds: 2,
        }
    }
}
