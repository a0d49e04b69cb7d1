//! Stands in for the decoder that bitmatrix.rs names. The refinement never decodes, so nothing here
//! is ever run.
pub trait BitGrid {
    fn size(&self) -> usize;
    fn bit(&self, y: usize, x: usize) -> bool;
}

#[allow(dead_code)]
pub enum DeQRError {
    DataUnderflow,
    DataOverflow,
    UnknownDataType,
    DataEcc,
    FormatEcc,
    InvalidVersion,
    InvalidGridSize,
    EncodingError,
    IoError,
}

pub struct Version(pub usize);

pub struct MetaData {
    pub version: Version,
    pub ecc_level: u16,
    pub mask: u16,
}

pub struct Grid<G>(G);

impl<G: BitGrid> Grid<G> {
    pub fn new(grid: G) -> Self {
        Grid(grid)
    }

    pub fn decode(&self) -> Result<(MetaData, String), DeQRError> {
        unreachable!("nothing decodes ({} modules)", self.0.size())
    }

    pub fn get_raw_data(&self) -> Result<(MetaData, ()), DeQRError> {
        unreachable!("nothing decodes ({} modules)", self.0.size())
    }
}
