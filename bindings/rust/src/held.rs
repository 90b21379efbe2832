//! What the link holds: messages, acknowledgements that are due, and address rows.
use crate::sys::{Entry, LinkSendSeq, ScheduledOutAck};
use crate::{TdmaTime, TetraAddress};

/// A message that the link holds. Its block stays in the link, until the next call.
#[derive(Clone, Copy, Debug, PartialEq, Eq)]
pub struct Message<'a> {
    /// Whom it goes to.
    pub main_address: TetraAddress,
    /// The carrier that it goes on.
    pub carrier_num: u16,
    /// Link id.
    pub link_id: u32,
    /// Endpoint id.
    pub endpoint_id: u32,
    /// Handle of its request.
    pub req_handle: u32,
    /// May it steal?
    pub stealing_permission: bool,
    /// Timeslot mask, if there is one; bit 0 is timeslot 1.
    pub mask: Option<u8>,
    /// The number of its receipt.
    pub receipt: u8,
    /// What is passed on with it.
    pub block: &'a [u8],
    /// How many bits its frame has, its check bits among them.
    pub frame_len: usize,
}

impl<'a> Message<'a> {
    /// The message of an entry of the engine's state.
    pub(crate) fn from_raw(entry: &'a Entry) -> Message<'a> {
        let sent = &entry.sent;
        Message {
            main_address: TetraAddress::from_raw(sent.ssi, sent.ssi_type),
            carrier_num: sent.carrier_num,
            link_id: sent.link_id,
            endpoint_id: sent.endpoint_id,
            req_handle: sent.req_handle,
            stealing_permission: sent.stealing_permission,
            mask: sent.has_mask.then_some(sent.mask),
            receipt: sent.receipt,
            block: &sent.block[..sent.block_len],
            frame_len: entry.frame.len,
        }
    }
}

/// An acknowledged message that the link holds.
#[derive(Clone, Copy, Debug, PartialEq, Eq)]
pub struct AcknowledgedMessage<'a> {
    /// What every message has.
    pub message: Message<'a>,
    /// Its N(S).
    pub ns: bool,
    /// How far it has come, if it was handed down; else it waits.
    pub under_way: Option<UnderWay>,
}

impl<'a> AcknowledgedMessage<'a> {
    /// The acknowledged message of an entry of the engine's state.
    pub(crate) fn from_raw(entry: &'a Entry) -> AcknowledgedMessage<'a> {
        let progress = &entry.progress;
        AcknowledgedMessage {
            message: Message::from_raw(entry),
            ns: progress.ns,
            under_way: progress.submitted_to_umac.then_some(UnderWay {
                retransmit_count: progress.retransmit_count,
                umac_done: progress.has_umac_done.then_some(progress.t_umac_done),
            }),
        }
    }
}

/// How far an acknowledged message has come that was handed down.
#[derive(Clone, Copy, Debug, PartialEq, Eq)]
pub struct UnderWay {
    /// How often it was sent again; at most 3.
    pub retransmit_count: u8,
    /// The time from which T251 counts: that of the tick end that noted the report on its last sending.
    pub umac_done: Option<TdmaTime>,
}

/// An acknowledgement that is due.
#[derive(Clone, Copy, Debug, PartialEq, Eq)]
pub struct AckDue {
    /// Whom it goes to.
    pub main_address: TetraAddress,
    /// The carrier that it goes on.
    pub carrier_num: u16,
    /// Its N(R).
    pub nr: bool,
    /// The timeslot, from 1 to 4, of the frame that it acknowledges.
    pub ts: u8,
}

impl AckDue {
    /// The acknowledgement of an entry of the engine's state.
    pub(crate) fn from_raw(ack: &ScheduledOutAck) -> AckDue {
        AckDue {
            main_address: TetraAddress::from_raw(ack.ssi, ack.ssi_type),
            carrier_num: ack.carrier_num,
            nr: ack.nr,
            ts: ack.ts,
        }
    }
}

/// What the link keeps of an SSI, from its first acknowledged message or frame with an N(S) to the next start.
#[derive(Clone, Copy, Debug, PartialEq, Eq)]
pub struct AddressRow {
    /// The SSI.
    pub ssi: u32,
    /// The N(S) of the next acknowledged message to it.
    pub vs: bool,
    /// The last N(S) that was accepted from it, if there was one. A frame with the same N(S) is a repeat.
    pub last_ns: Option<bool>,
}

impl AddressRow {
    /// The row of an entry of the engine's state.
    pub(crate) fn from_raw(row: &LinkSendSeq) -> AddressRow {
        AddressRow {
            ssi: row.ssi,
            vs: row.vs,
            last_ns: row.has_last_ns.then_some(row.last_ns),
        }
    }
}
