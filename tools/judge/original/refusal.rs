//! Where the Rust would panic on a line fit, and where document 01 tests what the Rust does not, the
//! run ends with document 01's number. It unwinds, so that the text between here and the entry stays
//! the original's.
use qr_lab_geometry::{FitLineError, Line2};

/// What a run unwinds with.
pub struct Refusal(pub u32);

fn end(number: u32) -> ! {
    std::panic::resume_unwind(Box::new(Refusal(number)))
}

/// Document 01's number for an error of the line fit.
pub fn number(error: FitLineError) -> u32 {
    match error {
        FitLineError::TooFewPoints => 13,
        FitLineError::LengthMismatch => 14,
        FitLineError::NonFiniteInput => 15,
        FitLineError::NonPositiveWeightSum => 16,
        FitLineError::Degenerate => 10,
    }
}

/// The fit's own end, with document 01's 11 behind the Rust's errors.
pub fn fitted(fit: Result<Line2, FitLineError>) -> Result<Line2, u32> {
    let line = fit.map_err(number)?;
    let finite = line.centroid.iter().chain(&line.dir).all(|v| v.is_finite());
    if finite {
        Ok(line)
    } else {
        Err(11)
    }
}

/// In the place of the wrapper's `expect`.
pub fn fit(fit: Result<Line2, FitLineError>) -> Line2 {
    fitted(fit).unwrap_or_else(|number| end(number))
}

/// An edge's residuals, before their median: 11 where one is not finite.
pub fn residuals(residuals: &[f64]) {
    if residuals.iter().any(|r| !r.is_finite()) {
        end(11)
    }
}
