//! What the link holds, a line for each: the time, the acknowledged messages in the queue's order, the unacknowledged ones, the
//! acknowledgements that are due, and the receipts that are taken.
use crate::messages::{Acknowledged, Due, Unacknowledged};
use crate::receipts::ReceiptWords;
use crate::words::{Carrier, Time};
use std::fmt::{Display, Formatter, Result};
use wipturay::Link;

/// The lines of a link.
pub struct StateLines<'a>(pub &'a Link);

impl Display for StateLines<'_> {
    fn fmt(&self, f: &mut Formatter<'_>) -> Result {
        let link = self.0;
        if link.is_started() {
            let (time, carrier) = (Time(link.time()), Carrier(link.main_carrier()));
            writeln!(f, "  time {time}, main {carrier}, T251 of {} slots", link.t251())?;
        } else {
            writeln!(f, "  not started")?;
        }
        put_lines(f, "queue", link.messages().map(Acknowledged))?;
        put_lines(f, "unacknowledged", link.udata_messages().map(Unacknowledged))?;
        put_lines(f, "acknowledgement due", link.acks_due().map(Due))?;
        for number in 0..=u8::MAX {
            if let Some(receipt) = ReceiptWords::of(link, number) {
                writeln!(f, "  receipt {number}: {receipt}")?;
            }
        }
        Ok(())
    }
}

/// A numbered line for each.
fn put_lines(f: &mut Formatter<'_>, name: &str, things: impl Iterator<Item = impl Display>) -> Result {
    (1..)
        .zip(things)
        .try_for_each(|(number, thing)| writeln!(f, "  {name} {number}: {thing}"))
}
