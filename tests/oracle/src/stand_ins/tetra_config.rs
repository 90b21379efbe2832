//! Stand-in for the crate `tetra_config`: a configuration that holds the main carrier.

/// The station's configuration.
pub mod bluestation {
    /// What the link reads of a cell.
    #[derive(Clone)]
    pub struct Cell {
        /// The main carrier.
        pub main_carrier: u16,
    }

    /// A configuration.
    #[derive(Clone)]
    pub struct StackConfig {
        /// Its cell.
        pub cell: Cell,
    }

    /// A configuration that entities share.
    #[derive(Clone)]
    pub struct SharedConfig {
        stack: StackConfig,
    }

    impl SharedConfig {
        /// A configuration with this main carrier.
        pub fn new(main_carrier: u16) -> Self {
            SharedConfig { stack: StackConfig { cell: Cell { main_carrier } } }
        }

        /// What it holds.
        pub fn config(&self) -> &StackConfig {
            &self.stack
        }
    }
}
