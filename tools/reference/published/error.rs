//! Stand-in: the error variants that the published modules name, with the types that they give them.

#[derive(Debug, Clone, Copy, PartialEq, Eq)]
pub enum Error {
    Truncated,
    BadBitWidth(u32),
    InvalidFrameCode(u32),
    InvalidQuantiser(i32),
    MissingReference,
    NotImplemented,
    InvalidIntraPrediction(u8, u8, u8),
    MissingIntraNeighbour(u8),
}

pub type Result<T> = core::result::Result<T, Error>;
