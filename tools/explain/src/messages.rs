//! Messages that the link holds, and acknowledgements that are due, in words.
use crate::words::{Address, Carrier, Mask, Nr, Ns, Time, stealing};
use std::fmt::{Display, Formatter, Result};
use wipturay::{AckDue, AcknowledgedMessage, Message, UnderWay};

/// What every message has.
struct Sent<'a>(Message<'a>);

impl Display for Sent<'_> {
    fn fmt(&self, f: &mut Formatter<'_>) -> Result {
        let Message {
            main_address,
            carrier_num,
            receipt,
            frame_len,
            ..
        } = self.0;
        let (address, carrier) = (Address::from(main_address), Carrier(carrier_num));
        write!(f, "{address}, {carrier}, receipt {receipt}, frame of {frame_len} bits")
    }
}

/// An acknowledged message: N(S), and how far it has come.
pub struct Acknowledged<'a>(pub AcknowledgedMessage<'a>);

impl Display for Acknowledged<'_> {
    fn fmt(&self, f: &mut Formatter<'_>) -> Result {
        let AcknowledgedMessage { message, ns, under_way } = self.0;
        write!(f, "{}, {}, ", Sent(message), Ns(ns))?;
        let Some(UnderWay {
            retransmit_count,
            umac_done,
        }) = under_way
        else {
            return f.write_str("waits");
        };
        match retransmit_count {
            0 => f.write_str("under way, handed down once")?,
            resends => write!(f, "under way, handed down {} times", u32::from(resends) + 1)?,
        }
        match umac_done {
            Some(time) => write!(f, ", done time {}", Time(time)),
            None => f.write_str(", no done time"),
        }
    }
}

/// An unacknowledged message.
pub struct Unacknowledged<'a>(pub Message<'a>);

impl Display for Unacknowledged<'_> {
    fn fmt(&self, f: &mut Formatter<'_>) -> Result {
        write!(
            f,
            "{}, {}, {}",
            Sent(self.0),
            stealing(self.0.stealing_permission),
            Mask(self.0.mask)
        )
    }
}

/// An acknowledgement that is due.
pub struct Due(pub AckDue);

impl Display for Due {
    fn fmt(&self, f: &mut Formatter<'_>) -> Result {
        let AckDue {
            main_address,
            carrier_num,
            nr,
            ts,
        } = self.0;
        let (address, carrier) = (Address::from(main_address), Carrier(carrier_num));
        write!(f, "{address}, {carrier}, {}, slot {ts}", Nr(nr))
    }
}
