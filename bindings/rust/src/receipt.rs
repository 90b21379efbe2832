//! Receipts.

/// How far the message of a receipt has come.
#[derive(Clone, Copy, Debug, PartialEq, Eq)]
pub enum TxState {
    /// The message is queued and not yet sent over the air.
    Pending,
    /// The lower layer had to discard the message. The link may still send it again: only an accepted release tells the end. An
    /// acknowledged message that ends so was handed down four times, and an earlier time may have been received.
    Discarded,
    /// The lower layer has sent the message over the air.
    Transmitted,
    /// The message was handed down four times, the last time it was transmitted, and no acknowledgement came in time. It may have been
    /// received all the same.
    Lost,
    /// The remote side has acknowledged receipt.
    Acknowledged,
}

impl TxState {
    /// The state with this number; the engine has none over 4.
    pub(crate) fn from_raw(number: u8) -> TxState {
        match number {
            0 => TxState::Pending,
            1 => TxState::Discarded,
            2 => TxState::Transmitted,
            3 => TxState::Lost,
            _ => TxState::Acknowledged,
        }
    }
}

/// A receipt that a request holds.
#[derive(Clone, Copy, Debug, PartialEq, Eq)]
pub struct Receipt {
    /// Its mark.
    pub state: TxState,
    /// Is an acknowledgement expected?
    pub expects_ack: bool,
}

impl Receipt {
    /// Is its mark a final one? Discarded is, and changes all the same while the link holds the message
    /// ([`Link::messages`](crate::Link::messages)) and may send it again.
    pub fn is_in_final_state(self) -> bool {
        match self.state {
            TxState::Pending => false,
            TxState::Transmitted => !self.expects_ack,
            TxState::Discarded | TxState::Lost | TxState::Acknowledged => true,
        }
    }
}

/// What the lower layer did with a message, for [`Link::report`](crate::Link::report).
#[derive(Clone, Copy, Debug, PartialEq, Eq)]
#[repr(u8)]
pub enum Report {
    /// It was sent over the air.
    Transmitted = 1,
    /// It was discarded.
    Discarded = 2,
}
