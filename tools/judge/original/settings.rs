//! Document 02's settings: numbers of a run in the place of the constants of consts.rs, which they are where none are given.
//! Only the watched build asks for them, so that the timed ones pay nothing.
use crate::consts::*;
use std::cell::Cell;

#[derive(Clone, Copy, Debug, PartialEq)]
pub struct Settings {
    pub probe_module_fractions: [f64; 2],
    pub edge_margin_modules: f64,
    pub max_points_per_edge: usize,
    pub min_edge_points: usize,
    pub contrast_floor: u8,
    pub outlier_floor_modules: f64,
    pub outlier_median_multiplier: f64,
    pub rounds: usize,
}

/// The constants.
pub const DEFAULTS: Settings = Settings {
    probe_module_fractions: REFINE_PROBE_MODULE_FRACTIONS,
    edge_margin_modules: REFINE_EDGE_MARGIN_MODULES,
    max_points_per_edge: REFINE_MAX_POINTS_PER_EDGE,
    min_edge_points: REFINE_MIN_EDGE_POINTS,
    contrast_floor: CONTRAST_FLOOR,
    outlier_floor_modules: REFINE_OUTLIER_FLOOR_MODULES,
    outlier_median_multiplier: REFINE_OUTLIER_MEDIAN_MULTIPLIER,
    rounds: REFINE_ROUNDS,
};

thread_local! {
    static OF_RUN: Cell<Settings> = const { Cell::new(DEFAULTS) };
}

/// The settings of the run that is on.
pub fn of_run() -> Settings {
    OF_RUN.with(|s| s.get())
}

/// Puts back what was there, also where a run unwinds.
struct Back(Settings);

impl Drop for Back {
    fn drop(&mut self) {
        OF_RUN.with(|s| s.set(self.0))
    }
}

/// Run under settings.
pub fn under<T>(settings: Settings, run: impl FnOnce() -> T) -> T {
    let _back = Back(OF_RUN.with(|s| s.replace(settings)));
    run()
}
