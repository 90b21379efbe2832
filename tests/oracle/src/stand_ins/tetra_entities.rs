//! `tetra_entities`: the Rust's link, its check sequence and its message queue, unchanged, and stand-ins for what is beside them.

/// The Rust's messagerouter.rs, of which the message queue is used.
pub mod messagerouter {
    include!(concat!(env!("TETRA_SOURCE"), "/tetra-entities/src/messagerouter.rs"));
}

/// The health watchdog of the message router.
pub mod health {
    /// Counts nothing.
    pub struct Registry;

    impl Registry {
        /// Counts nothing.
        pub fn note_caught_panic(&self) {}

        /// Counts nothing.
        pub fn note_tick(&self) {}
    }

    /// The one there is.
    pub fn registry() -> Registry {
        Registry
    }
}

pub use messagerouter::MessageQueue;
use tetra_config::bluestation::SharedConfig;
use tetra_core::TdmaTime;
use tetra_core::tetra_entities::TetraEntity;
use tetra_saps::SapMsg;

/// What an entity of the station answers to.
pub trait TetraEntityTrait: 'static {
    /// Which one it is.
    fn entity(&self) -> TetraEntity;
    /// Another configuration.
    fn set_config(&mut self, config: SharedConfig);
    /// A message for it.
    fn rx_prim(&mut self, queue: &mut MessageQueue, message: SapMsg);
    /// A slot begins.
    fn tick_start(&mut self, queue: &mut MessageQueue, ts: TdmaTime);
    /// A slot ends.
    fn tick_end(&mut self, queue: &mut MessageQueue, ts: TdmaTime) -> bool;
}

/// The link.
pub mod llc {
    /// Its parts.
    pub mod components {
        /// The Rust's fcs.rs.
        pub mod fcs {
            include!(concat!(env!("TETRA_SOURCE"), "/tetra-entities/src/llc/components/fcs.rs"));
        }
    }

    /// The Rust's llc_bs_ms.rs, and what looks into it.
    pub mod llc_bs_ms {
        include!(concat!(env!("TETRA_SOURCE"), "/tetra-entities/src/llc/llc_bs_ms.rs"));

        /// Looks into a link.
        pub mod look {
            include!("look.rs");
        }
    }
}
