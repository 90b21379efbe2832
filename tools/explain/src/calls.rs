//! A call of any bytes in words. Whether they are a call is the engine's answer: 2 and 3 are the numbers of what is none.
use crate::frames::Frame;
use crate::reader::Reader;
use crate::requests::Request;
use crate::words::Carrier;
use std::fmt::{Display, Formatter, Result};
use wipturay::Refused;

/// A call of any bytes, with the engine's answer.
pub struct CallWords<'a> {
    /// The bytes.
    pub bytes: &'a [u8],
    /// The refusal, if there is one.
    pub refused: Option<Refused>,
}

impl Display for CallWords<'_> {
    fn fmt(&self, f: &mut Formatter<'_>) -> Result {
        match self.refused.map(Refused::number) {
            Some(2) => f.write_str("no call: its lengths do not fill it, or a spare bit is not zero"),
            Some(3) => f.write_str("no call: its tag is not known"),
            _ => match Call::read(self.bytes) {
                Some(call) => write!(f, "{call}"),
                None => f.write_str("a call that has no words here"),
            },
        }
    }
}

/// A call, with whatever values it has.
pub enum Call<'a> {
    Start { carrier: Carrier, t251: u16 },
    TickStart { h: u16, m: u8, f: u8, t: u8 },
    TickEnd,
    DataRequest(Request<'a>),
    UnitdataRequest(Request<'a>),
    Frame(Frame<'a>),
    Report { receipt: u8, how: u8 },
    Release { receipt: u8 },
}

impl<'a> Call<'a> {
    /// The call that bytes spell: a tag, a length of two bytes, and a value that is taken apart to its end.
    pub fn read(bytes: &'a [u8]) -> Option<Call<'a>> {
        let (&[tag, _, _], value) = bytes.split_first_chunk()?;
        let mut value = Reader(value);
        let call = match tag {
            0x21 => Call::Start {
                carrier: Carrier(value.two()?),
                t251: value.two()?,
            },
            0x22 => Call::TickStart {
                h: value.two()?,
                m: value.one()?,
                f: value.one()?,
                t: value.one()?,
            },
            0x23 => Call::TickEnd,
            0x24 => Call::DataRequest(Request::take(&mut value)?),
            0x25 => Call::UnitdataRequest(Request::take(&mut value)?),
            0x26 => Call::Frame(Frame::take(&mut value)?),
            0x27 => Call::Report {
                receipt: value.one()?,
                how: value.one()?,
            },
            0x28 => Call::Release { receipt: value.one()? },
            _ => return None,
        };
        value.0.is_empty().then_some(call)
    }
}

impl Display for Call<'_> {
    fn fmt(&self, out: &mut Formatter<'_>) -> Result {
        match self {
            Call::Start { carrier, t251 } => write!(out, "start: main {carrier}, T251 of {t251} slots"),
            Call::TickStart { h, m, f, t } => write!(out, "tick start: h {h}, m {m}, f {f}, t {t}"),
            Call::TickEnd => out.write_str("tick end"),
            Call::DataRequest(request) => write!(out, "data request: {request}"),
            Call::UnitdataRequest(request) => write!(out, "unitdata request: {request}"),
            Call::Frame(frame) => write!(out, "frame: {frame}"),
            Call::Report { receipt, how: 1 } => write!(out, "report: receipt {receipt} was transmitted"),
            Call::Report { receipt, how: 2 } => write!(out, "report: receipt {receipt} was discarded"),
            Call::Report { receipt, how } => write!(out, "report: receipt {receipt} with the unknown value {how}"),
            Call::Release { receipt } => write!(out, "release of receipt {receipt}"),
        }
    }
}
