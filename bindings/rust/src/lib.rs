//! The basic link (LLC) of a TETRA base station: safe Rust over the archive of the engine that is proved in Rattle.
//!
//! A [`Link`] takes calls and answers each with [`Records`], or with a [`Refused`] that carries the number of the first of
//! document 01's questions that the call fails; a refused call changes nothing. Values that no call could hold ([`DoesNotFit`])
//! are turned away where they are made, by [`TetraAddress::new`], [`Bits::new`] and [`Block::new`]; every other refusal is the
//! engine's. Number 1 never comes, since the link lends the engine memory of the right length and its own state.
//!
//! Document 01's sample, a frame that comes in and is acknowledged:
//!
//! ```
//! use wipturay::{Bits, Frame, Kind, Link, Record, SsiType, TdmaTime, TetraAddress};
//!
//! # fn main() -> Result<(), Box<dyn std::error::Error>> {
//! let mut link = Link::new();
//! link.start(0x05fa, 4)?;
//! link.tick_start(TdmaTime { h: 0, m: 1, f: 1, t: 3 })?;
//!
//! // BL-DATA with N(S) 1 and no SDU goes up ...
//! let radio = TetraAddress::new(0x0003e9, SsiType::Issi)?;
//! let mut records = link.frame(&Frame::new(radio, 0x05fa, Bits::new(&[0b00011_000], 5)?))?;
//! let up = Record {
//!     kind: Kind::DataUp,
//!     main_address: radio,
//!     carrier_num: None,
//!     link_id: 0,
//!     endpoint_id: 0,
//!     req_handle: None,
//!     stealing_permission: None,
//!     mask: None,
//!     receipt: None,
//!     block: Some(&[]),
//!     fcs_flag: Some(false),
//!     bits: None,
//! };
//! assert_eq!(records.next(), Some(up));
//! assert_eq!(records.next(), None);
//! assert_eq!(link.scheduled_out_acks(), 1);
//!
//! // ... and at the end of the tick BL-ACK with N(R) 1 is to be sent.
//! let mut records = link.tick_end()?;
//! let reply = Record {
//!     kind: Kind::Reply,
//!     main_address: radio,
//!     carrier_num: Some(0x05fa),
//!     link_id: 0,
//!     endpoint_id: 0,
//!     req_handle: Some(0),
//!     stealing_permission: Some(false),
//!     mask: None,
//!     receipt: None,
//!     block: None,
//!     fcs_flag: None,
//!     bits: Some(Bits::new(&[0b00111_000], 5)?),
//! };
//! assert_eq!(records.next(), Some(reply));
//! assert_eq!(records.next(), None);
//! # Ok(())
//! # }
//! ```
//!
//! The same by the bytes of document 01:
//!
//! ```
//! # fn main() -> Result<(), wipturay::Refused> {
//! let mut link = wipturay::Link::new();
//! assert_eq!(link.call(b"\x21\x00\x04\x05\xfa\x00\x04")?.as_bytes(), b"");
//! assert_eq!(link.call(b"\x22\x00\x05\x00\x00\x01\x01\x03")?.as_bytes(), b"");
//! assert_eq!(
//!     link.call(b"\x26\x00\x12\x00\x03\xe9\x01\x05\xfa\0\0\0\0\0\0\0\0\x00\x00\x05\x18")?.as_bytes(),
//!     b"\x01\x00\x01\x04\x02\x00\x03\x00\x03\xe9\x03\x00\x01\x01\x05\x00\x04\0\0\0\0\x06\x00\x04\0\0\0\0\
//!       \x0b\x00\x00\x0d\x00\x01\x00"
//! );
//! assert_eq!(
//!     link.call(b"\x23\x00\x00")?.as_bytes(),
//!     b"\x01\x00\x01\x02\x02\x00\x03\x00\x03\xe9\x03\x00\x01\x01\x04\x00\x02\x05\xfa\x05\x00\x04\0\0\0\0\
//!       \x06\x00\x04\0\0\0\0\x07\x00\x04\0\0\0\0\x08\x00\x01\x00\x0c\x00\x03\x00\x05\x38"
//! );
//! assert_eq!(link.call(b"\x23\x00\x01").unwrap_err().number(), 2);
//! # Ok(())
//! # }
//! ```
#![deny(missing_docs)]
#![deny(unsafe_op_in_unsafe_fn)]

#[cfg(not(all(target_arch = "x86_64", target_pointer_width = "64", target_os = "linux")))]
compile_error!("the archive of the engine is for Linux on x86-64");

#[cfg(doctest)]
#[doc = include_str!("../README.md")]
struct Readme;

mod address;
mod bits;
mod block;
mod call;
mod does_not_fit;
mod engine;
mod frame;
mod held;
mod link;
mod receipt;
mod record;
mod refused;
mod request;
mod sys;

pub use address::{SsiType, TetraAddress};
pub use bits::Bits;
pub use block::Block;
pub use does_not_fit::DoesNotFit;
pub use frame::Frame;
pub use held::{AckDue, AcknowledgedMessage, AddressRow, Message, UnderWay};
pub use link::Link;
pub use receipt::{Receipt, Report, TxState};
pub use record::{Kind, Record, Records};
pub use refused::Refused;
pub use request::Request;
pub use sys::TdmaTime;
