//! The link.
use crate::call::Call;
use crate::engine::Engine;
use crate::{
    AckDue, AcknowledgedMessage, AddressRow, Frame, Message, Receipt, Records, Refused, Report, Request, TdmaTime, TxState,
};
use std::fmt;

/// The basic link of a base station.
///
/// Each call is answered by its records, or refused by the number of the first of document 01's questions that it fails; then
/// nothing has changed. No call allocates, blocks or panics. A link is about 100 KB, allocated once; a call takes less
/// than 512 KB of stack.
pub struct Link {
    memory: Box<Memory>,
}

/// All memory of a link.
struct Memory {
    engine: Engine,
    call: Call,
}

impl Link {
    /// A link that is empty and not started.
    pub fn new() -> Link {
        Link {
            memory: Box::new(Memory {
                engine: Engine::new(),
                call: Call::new(),
            }),
        }
    }

    /// Any bytes: a call of document 01 as it stands there, or bytes that are none and get a number.
    pub fn call(&mut self, bytes: &[u8]) -> Result<Records<'_>, Refused> {
        self.memory.engine.call(bytes)
    }

    /// Makes a call with this tag, whose value `put` puts together.
    fn make(&mut self, tag: u8, put: impl FnOnce(&mut Call)) -> Result<Records<'_>, Refused> {
        let Memory { engine, call } = &mut *self.memory;
        call.begin(tag);
        put(call);
        engine.call(call.bytes())
    }

    /// Empties everything and starts, with the main carrier, and T251 in slots.
    pub fn start(&mut self, main_carrier: u16, t251: u16) -> Result<Records<'_>, Refused> {
        self.make(0x21, |call| {
            call.put(&main_carrier.to_be_bytes()).put(&t251.to_be_bytes());
        })
    }

    /// Begins a tick: the time is now this.
    pub fn tick_start(&mut self, time: TdmaTime) -> Result<Records<'_>, Refused> {
        self.make(0x22, |call| {
            call.put(&time.h.to_be_bytes()).put(&[time.m, time.f, time.t]);
        })
    }

    /// Ends a tick: resends, first sendings, replies and unacknowledged messages come out as records, in this order.
    pub fn tick_end(&mut self) -> Result<Records<'_>, Refused> {
        self.make(0x23, |_| {})
    }

    /// Asks for an SDU to be sent and acknowledged; where it steals or goes to a group, it goes unacknowledged.
    pub fn data_request(&mut self, request: &Request<'_>) -> Result<Records<'_>, Refused> {
        self.make(0x24, |call| request.put(call))
    }

    /// Asks for an SDU to be sent unacknowledged.
    pub fn unitdata_request(&mut self, request: &Request<'_>) -> Result<Records<'_>, Refused> {
        self.make(0x25, |call| request.put(call))
    }

    /// Takes a frame that came in: what goes up comes out as a record. Of a repeat, whose N(S) is the last one accepted from its
    /// SSI, nothing goes up; it is acknowledged.
    pub fn frame(&mut self, frame: &Frame<'_>) -> Result<Records<'_>, Refused> {
        self.make(0x26, |call| frame.put(call))
    }

    /// Takes the lower layer's report on the message of a receipt.
    pub fn report(&mut self, receipt: u8, report: Report) -> Result<Records<'_>, Refused> {
        self.make(0x27, |call| {
            call.put(&[receipt, report as u8]);
        })
    }

    /// Frees a receipt whose message is finished. Look at its mark first: afterwards it is gone.
    pub fn release(&mut self, receipt: u8) -> Result<Records<'_>, Refused> {
        self.make(0x28, |call| {
            call.put(&[receipt]);
        })
    }

    /// The receipt with this number, if a request holds it.
    pub fn receipt(&self, number: u8) -> Option<Receipt> {
        let place = self.memory.engine.state().receipts.get(usize::from(number))?;
        place.taken.then_some(Receipt {
            state: TxState::from_raw(place.state),
            expects_ack: place.expects_ack,
        })
    }

    /// Was it started?
    pub fn is_started(&self) -> bool {
        self.memory.engine.state().started
    }

    /// The main carrier of the last start.
    pub fn main_carrier(&self) -> u16 {
        self.memory.engine.state().main_carrier
    }

    /// T251 of the last start, in slots.
    pub fn t251(&self) -> u16 {
        self.memory.engine.state().t251
    }

    /// The time of the last tick start; from a start to the next tick start h 0, m 1, f 1, t 1.
    pub fn time(&self) -> TdmaTime {
        self.memory.engine.state().dltime
    }

    /// How many acknowledged messages it holds, waiting or under way; at most 64.
    pub fn outbound_messages(&self) -> usize {
        self.memory.engine.state().n_messages
    }

    /// How many unacknowledged messages wait for the next tick end; at most 32.
    pub fn outbound_udata_messages(&self) -> usize {
        self.memory.engine.state().n_udata
    }

    /// How many acknowledgements are due; at most 64.
    pub fn scheduled_out_acks(&self) -> usize {
        self.memory.engine.state().n_acks
    }

    /// The acknowledged messages that it holds, in the queue's order.
    pub fn messages(&self) -> impl Iterator<Item = AcknowledgedMessage<'_>> {
        let state = self.memory.engine.state();
        state.outbound_messages[..state.n_messages]
            .iter()
            .map(AcknowledgedMessage::from_raw)
    }

    /// The unacknowledged messages that wait for the next tick end, in the queue's order.
    pub fn udata_messages(&self) -> impl Iterator<Item = Message<'_>> {
        let state = self.memory.engine.state();
        state.outbound_udata_messages[..state.n_udata].iter().map(Message::from_raw)
    }

    /// The acknowledgements that are due, the oldest first.
    pub fn acks_due(&self) -> impl Iterator<Item = AckDue> {
        let state = self.memory.engine.state();
        state.scheduled_out_acks[..state.n_acks].iter().map(AckDue::from_raw)
    }

    /// How many SSIs have a row; at most 256 until the next start.
    pub fn link_send_seqs(&self) -> usize {
        self.memory.engine.state().n_rows
    }

    /// The address rows.
    pub fn address_rows(&self) -> impl Iterator<Item = AddressRow> {
        let state = self.memory.engine.state();
        state.link_send_seq[..state.n_rows].iter().map(AddressRow::from_raw)
    }
}

impl Default for Link {
    fn default() -> Link {
        Link::new()
    }
}

impl fmt::Debug for Link {
    fn fmt(&self, f: &mut fmt::Formatter<'_>) -> fmt::Result {
        f.debug_struct("Link")
            .field("is_started", &self.is_started())
            .field("time", &self.time())
            .field("outbound_messages", &self.outbound_messages())
            .field("outbound_udata_messages", &self.outbound_udata_messages())
            .field("scheduled_out_acks", &self.scheduled_out_acks())
            .finish_non_exhaustive()
    }
}
