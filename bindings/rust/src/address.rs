//! Addresses.
use crate::DoesNotFit;

/// Whom an SSI stands for.
#[derive(Clone, Copy, Debug, PartialEq, Eq, Hash)]
#[repr(u8)]
pub enum SsiType {
    /// One subscriber.
    Issi = 1,
    /// A group.
    Gssi = 2,
}

/// An SSI of 24 bits, with its type.
#[derive(Clone, Copy, Debug, PartialEq, Eq, Hash)]
pub struct TetraAddress {
    ssi: u32,
    ssi_type: SsiType,
}

impl TetraAddress {
    /// The address with this SSI, unless it has more than 24 bits.
    pub fn new(ssi: u32, ssi_type: SsiType) -> Result<TetraAddress, DoesNotFit> {
        if ssi >> 24 != 0 {
            return Err(DoesNotFit::Ssi);
        }
        Ok(TetraAddress { ssi, ssi_type })
    }

    /// The address with this SSI and the number of its type; the engine has no SSI over 24 bits and no type but 1 and 2.
    pub(crate) fn from_raw(ssi: u32, ssi_type: u8) -> TetraAddress {
        let ssi_type = match ssi_type {
            1 => SsiType::Issi,
            _ => SsiType::Gssi,
        };
        TetraAddress { ssi, ssi_type }
    }

    /// The SSI.
    pub fn ssi(self) -> u32 {
        self.ssi
    }

    /// Its type.
    pub fn ssi_type(self) -> SsiType {
        self.ssi_type
    }
}
