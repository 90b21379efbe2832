//! The link of bindings/rust: its answers, and what it holds after each call.
use crate::held::Held;
use crate::hex_line::bytes_of;
use crate::outcome::{Outcome, text};
use wipturay::Link;

/// What it gives for each line. One that spells no bytes is no call: what the runner prints for it stands there.
pub fn outcomes(lines: &[Vec<u8>]) -> Vec<Outcome> {
    let mut link = Link::new();
    let outcome = |line: &Vec<u8>| {
        let text = bytes_of(line).map_or_else(|| text(2, []), |bytes| answer(&mut link, &bytes));
        Outcome { text, held: Some(Held::by_link(&link)) }
    };
    lines.iter().map(outcome).collect()
}

/// The text of its answer to a call.
fn answer(link: &mut Link, bytes: &[u8]) -> String {
    match link.call(bytes) {
        Err(refused) => text(refused.number(), []),
        Ok(mut records) => {
            let (mut parts, mut rest) = (Vec::new(), records.as_bytes());
            while records.next().is_some() {
                let (record, behind) = rest.split_at(rest.len() - records.as_bytes().len());
                parts.push(record);
                rest = behind;
            }
            // Bytes behind the last record count as one more, and so are seen.
            parts.extend((!rest.is_empty()).then_some(rest));
            text(0, parts)
        }
    }
}
