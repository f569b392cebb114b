//! The published errors by the numbers and details of document 01.

use published::Error;

/// A refusal: the Rust's name, the document's number, and the exact detail (0 for those that carry none).
#[derive(Debug, Clone, Copy, PartialEq, Eq)]
pub struct Refusal {
    pub name: &'static str,
    pub number: u8,
    pub detail: i64,
}

impl Refusal {
    /// `quantiser` is the one in force when the error was made: the Rust holds the new one wrapped to 32 bits.
    pub fn of(error: Error, quantiser: u32) -> Self {
        let (name, number, detail) = match error {
            Error::Truncated => ("Truncated", 9, 0),
            Error::MissingReference => ("MissingReference", 3, 0),
            // One variant, two questions: no list position passes 31.
            Error::BadBitWidth(32) => ("BadBitWidth", 10, 32),
            Error::BadBitWidth(position) => ("BadBitWidth", 13, position.into()),
            Error::InvalidFrameCode(code) => ("InvalidFrameCode", 11, code.into()),
            Error::InvalidQuantiser(wrapped) => ("InvalidQuantiser", 12, unwrap_quantiser(wrapped, quantiser)),
            Error::NotImplemented | Error::InvalidIntraPrediction(..) | Error::MissingIntraNeighbour(_) => {
                unreachable!("{error:?} is no error of an inter macroblock")
            }
        };
        Self { name, number, detail }
    }

    pub fn line(self, next: u64) -> String {
        format!("err {} {} {} {next}", self.name, self.detail, self.number)
    }
}

/// The exact sum of a quantiser and a signed code, from its low 32 bits: a code is at least -(2^31 - 1).
fn unwrap_quantiser(wrapped: i32, quantiser: u32) -> i64 {
    let least = i64::from(quantiser) - i64::from(i32::MAX);
    let sum = i64::from(wrapped);
    if sum < least { sum + (1 << 32) } else { sum }
}
