//! `tetra_core`: the Rust's bits, slot time and receipts, unchanged, and stand-ins for the other names taken from it.

/// The Rust's bitbuffer.rs.
pub mod bitbuffer {
    include!(concat!(env!("TETRA_SOURCE"), "/tetra-core/src/bitbuffer.rs"));
}

/// The Rust's tdma_time.rs.
pub mod tdma_time {
    include!(concat!(env!("TETRA_SOURCE"), "/tetra-core/src/tdma_time.rs"));
}

/// The Rust's tx_receipt.rs, and two ways to look into a reporter.
pub mod tx_receipt {
    include!(concat!(env!("TETRA_SOURCE"), "/tetra-core/src/tx_receipt.rs"));

    impl TxReporter {
        /// Do both halves report on one receipt?
        pub fn is_same(&self, other: &TxReporter) -> bool {
            Arc::ptr_eq(&self.state, &other.state)
        }

        /// Does it expect an acknowledgement?
        pub fn is_acknowledged_service(&self) -> bool {
            self.expects_ack
        }
    }
}

pub use bitbuffer::BitBuffer;
pub use tdma_time::TdmaTime;
pub use tx_receipt::{TxReporter, TxState};

/// What a header's reader answers when it fails.
pub mod pdu_parse_error {
    /// Why a header was not read.
    #[derive(Debug)]
    pub enum PduParseErr {
        /// Too few bits.
        BufferEnded { field: Option<&'static str> },
        /// Another value than the one that this header has.
        InvalidValue { field: &'static str, value: u64 },
    }
}

/// Reads one field of a header.
#[macro_export]
macro_rules! let_field {
    ($buf:ident, $name:ident, $bits:expr) => {
        let $name = $buf.read_field($bits, stringify!($name))?;
    };
}

/// Is a field what it has to be?
#[macro_export]
macro_rules! expect_value {
    ($name:ident, $value:expr) => {
        if $name == $value { Ok(()) } else { Err(PduParseErr::InvalidValue { field: stringify!($name), value: $name }) }
    };
}

/// Says nothing.
#[macro_export]
macro_rules! unimplemented_log {
    ($($x:tt)*) => {};
}

/// Who sends or gets a message inside the station.
pub mod tetra_entities {
    /// An entity.
    #[derive(Debug, Clone, Copy, PartialEq, Eq, Hash)]
    pub enum TetraEntity {
        /// The lower layer.
        Umac,
        /// The link.
        Llc,
        /// The upper layer.
        Mle,
    }
}

/// Which access point a message passes.
#[derive(Debug, Clone, Copy, PartialEq, Eq)]
pub enum Sap {
    /// Between link and lower layer.
    TmaSap,
    /// Between link and upper layer.
    TlaSap,
    /// Another one.
    Control,
}

/// The service of layer 2.
#[derive(Debug, Clone, Copy, PartialEq, Eq)]
pub enum Layer2Service {
    /// Acknowledged.
    Acknowledged,
    /// Unacknowledged.
    Unacknowledged,
}

/// What an SSI names.
#[derive(Debug, Clone, Copy, PartialEq, Eq)]
pub enum SsiType {
    /// One subscriber.
    Issi,
    /// A group.
    Gssi,
}

/// An address.
#[derive(Debug, Clone, Copy, PartialEq, Eq)]
pub struct TetraAddress {
    /// Its 24 bits.
    pub ssi: u32,
    /// What it names.
    pub ssi_type: SsiType,
}
