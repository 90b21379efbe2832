//! The engine and the memory that it works on. Nothing else calls the archive.
use crate::record::Records;
use crate::refused::Refused;
use crate::sys::{Answer, OUTPUT, STORE, State, wipturay_call, wipturay_new};

/// State, store and output. After `new` only the archive writes here.
pub struct Engine {
    answer: Answer,
    store: [u8; STORE],
    output: [u8; OUTPUT],
}

impl Engine {
    /// An engine with the archive's new state.
    pub fn new() -> Engine {
        Engine {
            answer: Answer {
                state: wipturay_new(),
                len: 0,
                number: 0,
            },
            store: [0; STORE],
            output: [0; OUTPUT],
        }
    }

    /// The state that the last call left.
    pub fn state(&self) -> &State {
        &self.answer.state
    }

    /// One call of any bytes.
    pub fn call(&mut self, bytes: &[u8]) -> Result<Records<'_>, Refused> {
        // SAFETY: each pointer and length is that of a live slice; store and output are borrowed for this call alone. The
        // state is copied before the archive runs, so the answer may take its place. The archive takes any state and any
        // bytes, stays inside the slices, keeps no pointer and returns (proved).
        unsafe {
            wipturay_call(
                &raw mut self.answer,
                self.answer.state,
                self.store.as_mut_ptr(),
                self.store.len(),
                self.output.as_mut_ptr(),
                self.output.len(),
                bytes.as_ptr(),
                bytes.len(),
            );
        }
        match self.answer.number {
            0 => Ok(Records::new(&self.output[..self.answer.len])),
            number => Err(Refused { number }),
        }
    }
}
