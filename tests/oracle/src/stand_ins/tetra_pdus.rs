//! `tetra_pdus`: the Rust's headers and constants, unchanged, and a stand-in for T251, which document 01 sets for each run.

/// The link's part.
pub mod llc {
    /// Constants and timers.
    pub mod consts {
        /// The Rust's consts.rs.
        pub mod consts {
            include!(concat!(env!("TETRA_SOURCE"), "/tetra-pdus/src/llc/consts/consts.rs"));
        }

        /// T251, settable while the program runs.
        pub mod timers {
            use std::cell::Cell;
            use std::cmp::Ordering;

            /// What an age is compared with.
            pub struct Timer;

            thread_local! {
                static SLOTS: Cell<u32> = const { Cell::new(0) };
            }

            /// Sets T251, in slots, for this thread.
            pub fn set_sender_retry_timer(slots: u32) {
                SLOTS.set(slots);
            }

            impl PartialEq<Timer> for u32 {
                fn eq(&self, _other: &Timer) -> bool {
                    *self == SLOTS.get()
                }
            }

            impl PartialOrd<Timer> for u32 {
                fn partial_cmp(&self, _other: &Timer) -> Option<Ordering> {
                    self.partial_cmp(&SLOTS.get())
                }
            }

            /// T251.
            pub const T251_SENDER_RETRY_TIMER: Timer = Timer;
        }
    }

    /// Enums.
    pub mod enums {
        /// The Rust's llc_pdu_type.rs.
        pub mod llc_pdu_type {
            include!(concat!(env!("TETRA_SOURCE"), "/tetra-pdus/src/llc/enums/llc_pdu_type.rs"));
        }
    }

    /// Headers.
    pub mod pdus {
        /// The Rust's bl_ack.rs.
        pub mod bl_ack {
            include!(concat!(env!("TETRA_SOURCE"), "/tetra-pdus/src/llc/pdus/bl_ack.rs"));
        }

        /// The Rust's bl_adata.rs.
        pub mod bl_adata {
            include!(concat!(env!("TETRA_SOURCE"), "/tetra-pdus/src/llc/pdus/bl_adata.rs"));
        }

        /// The Rust's bl_data.rs.
        pub mod bl_data {
            include!(concat!(env!("TETRA_SOURCE"), "/tetra-pdus/src/llc/pdus/bl_data.rs"));
        }

        /// The Rust's bl_udata.rs.
        pub mod bl_udata {
            include!(concat!(env!("TETRA_SOURCE"), "/tetra-pdus/src/llc/pdus/bl_udata.rs"));
        }
    }
}
