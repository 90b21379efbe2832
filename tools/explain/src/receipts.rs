//! Receipts in words: the mark, whether an acknowledgement is expected, and what becomes of it.
use std::fmt::{Display, Formatter, Result};
use wipturay::{Link, Receipt, TxState};

/// How often a message is sent again before it leaves (`agedBy`, crates/llc_rule/specs/Step.antt).
const RESENDS: u8 = 3;

/// A receipt that a request holds.
pub struct ReceiptWords {
    receipt: Receipt,
    /// How often the message was sent again, if it was sent and the link still holds it.
    resends: Option<u8>,
}

impl ReceiptWords {
    /// The receipt with this number, if a request holds it.
    pub fn of(link: &Link, number: u8) -> Option<ReceiptWords> {
        let receipt = link.receipt(number)?;
        let message = link.messages().find(|held| held.message.receipt == number);
        let resends = message
            .and_then(|held| held.under_way)
            .map(|under_way| under_way.retransmit_count);
        Some(ReceiptWords { receipt, resends })
    }

    /// What becomes of it. Discarded is no end while the message is held: it is sent again, or after its last resend leaves.
    /// Of messages that expect no acknowledgement none is held once it is marked.
    fn outcome(&self) -> &'static str {
        match (self.receipt.state, self.resends) {
            (TxState::Discarded, Some(resends)) if resends < RESENDS => "held, to be sent again after T251",
            (TxState::Discarded, Some(_)) => "held, not to be sent again, to leave after T251",
            _ if self.receipt.is_in_final_state() => "final",
            _ => "not final",
        }
    }
}

impl Display for ReceiptWords {
    fn fmt(&self, f: &mut Formatter<'_>) -> Result {
        let mark = match self.receipt.state {
            TxState::Pending => "Pending",
            TxState::Discarded => "Discarded",
            TxState::Transmitted => "Transmitted",
            TxState::Lost => "Lost",
            TxState::Acknowledged => "Acknowledged",
        };
        let expects = if self.receipt.expects_ack { "an" } else { "no" };
        write!(f, "{mark}, expects {expects} acknowledgement, {}", self.outcome())
    }
}

#[cfg(test)]
mod tests {
    use super::ReceiptWords;
    use crate::lines::{Ended, Line};
    use std::fs;
    use wipturay::{Kind, Link, TdmaTime};

    /// The calls of the test's list and of the course's runs.
    fn runs() -> Vec<Vec<Vec<u8>>> {
        let root = concat!(env!("CARGO_MANIFEST_DIR"), "/../..");
        let course = fs::read_dir(format!("{root}/samples/course")).unwrap();
        let mut files: Vec<_> = course.map(|entry| entry.unwrap().path()).collect();
        files.retain(|path| path.extension() == Some("calls".as_ref()));
        files.push(format!("{root}/tests/explain/list.calls").into());
        let calls = |path| {
            let mut line = Line::default();
            let lines = fs::read(path)
                .unwrap()
                .into_iter()
                .filter_map(move |character| line.feed(character));
            let call = |ended| match ended {
                Ended::Call(bytes) => Some(bytes),
                Ended::NoCall => None,
            };
            lines.filter_map(call).collect()
        };
        files.into_iter().map(calls).collect()
    }

    /// The link after each beginning of each run.
    fn links() -> impl Iterator<Item = Link> {
        runs().into_iter().flat_map(|calls| {
            (0..=calls.len()).map(move |end| {
                let mut link = Link::new();
                for call in &calls[..end] {
                    let _ = link.call(call);
                }
                link
            })
        })
    }

    /// What is told of a receipt.
    fn told(link: &Link, number: u8) -> String {
        ReceiptWords::of(link, number).map_or(String::new(), |words| words.to_string())
    }

    /// The next slot, within a hyperframe.
    fn next(TdmaTime { t, f, m, h }: TdmaTime) -> TdmaTime {
        match (t, f) {
            (4, 18) => TdmaTime { t: 1, f: 1, m: m + 1, h },
            (4, _) => TdmaTime { t: 1, f: f + 1, m, h },
            _ => TdmaTime { t: t + 1, f, m, h },
        }
    }

    /// Is the message of a receipt sent again, before it leaves?
    fn sent_again(link: &mut Link, number: u8) -> bool {
        while link.messages().any(|held| held.message.receipt == number) {
            let sent = |record: wipturay::Record<'_>| record.kind == Kind::Acknowledged && record.receipt == Some(number);
            if link.tick_end().unwrap().any(sent) {
                return true;
            }
            link.tick_start(next(link.time())).unwrap();
        }
        false
    }

    #[test]
    fn final_is_told_exactly_where_a_release_is_accepted() {
        let mut finals = 0;
        for mut link in links() {
            for number in 0..128 {
                let told = told(&link, number);
                let is_final = told.ends_with(", final");
                assert_eq!(link.release(number).is_ok(), is_final, "{told}");
                finals += usize::from(is_final);
            }
        }
        assert!(finals > 0);
    }

    #[test]
    fn a_discarded_message_is_sent_again_or_leaves_as_told() {
        let (mut again, mut leave) = (0, 0);
        for mut link in links() {
            for number in 0..128 {
                let told = told(&link, number);
                if told.ends_with(", held, to be sent again after T251") {
                    assert!(sent_again(&mut link, number));
                    again += 1;
                    break;
                }
                if told.ends_with(", held, not to be sent again, to leave after T251") {
                    assert!(!sent_again(&mut link, number));
                    assert!(link.release(number).is_ok());
                    leave += 1;
                    break;
                }
            }
        }
        assert!(again > 0 && leave > 0);
    }
}
