//! Values that no call can hold.
use std::error::Error;
use std::fmt;

/// A value that the format of a call has no room for. It is seen where the value is made, so the engine never is asked.
#[derive(Clone, Copy, Debug, PartialEq, Eq)]
pub enum DoesNotFit {
    /// An SSI of more than 24 bits.
    Ssi,
    /// A block of more than 255 bytes.
    Block,
    /// More than 65,535 bits.
    Bits,
    /// More bits than their bytes have.
    Bytes,
}

impl fmt::Display for DoesNotFit {
    fn fmt(&self, f: &mut fmt::Formatter<'_>) -> fmt::Result {
        f.write_str(match self {
            DoesNotFit::Ssi => "an SSI of more than 24 bits",
            DoesNotFit::Block => "a block of more than 255 bytes",
            DoesNotFit::Bits => "more than 65,535 bits",
            DoesNotFit::Bytes => "more bits than their bytes have",
        })
    }
}

impl Error for DoesNotFit {}
