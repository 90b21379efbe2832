//! Stand-in for the crate `tetra_saps`: the messages that the link takes and gives. What the link only passes on travels in
//! `PassOn`, in fields of the Rust's own names.

/// Document 01's pass-through block, and what the request's flags were.
#[derive(Debug, Clone, Copy, PartialEq, Eq)]
pub struct PassOn {
    /// How many of `bytes` are the block.
    pub len: u8,
    /// The block, and zeros behind it.
    pub bytes: [u8; 64],
    /// Was a timeslot mask given?
    pub has_mask: bool,
    /// The tag of the request, if it asked for an FCS.
    pub fcs_asked_by: Option<u8>,
}

/// What CMCE asks of channels.
pub mod lcmc {
    /// Its enums.
    pub mod enums {
        /// How a channel is allocated.
        pub mod alloc_type {
            /// How a channel is allocated.
            #[derive(Debug, Clone, Copy, PartialEq, Eq)]
            pub enum ChanAllocType {
                /// In place of the present one.
                Replace,
                /// Besides.
                Additional,
            }
        }

        /// Which directions are assigned.
        pub mod ul_dl_assignment {
            /// Which directions are assigned.
            #[derive(Debug, Clone, Copy, PartialEq, Eq)]
            pub enum UlDlAssignment {
                /// Both.
                Both,
                /// The downlink.
                Dl,
            }
        }
    }

    /// Its fields.
    pub mod fields {
        /// A channel asked for.
        pub mod chan_alloc_req {
            use crate::lcmc::enums::alloc_type::ChanAllocType;
            use crate::lcmc::enums::ul_dl_assignment::UlDlAssignment;

            /// A channel asked for.
            #[derive(Debug, Clone, PartialEq, Eq)]
            pub struct CmceChanAllocReq {
                /// Left out of document 01.
                pub usage: Option<u8>,
                /// The timeslot mask.
                pub timeslots: [bool; 4],
                /// How it is allocated.
                pub alloc_type: ChanAllocType,
                /// Which directions.
                pub ul_dl_assigned: UlDlAssignment,
                /// The carrier, if one was given.
                pub carrier: Option<u16>,
            }
        }
    }
}

/// Between link and lower layer.
pub mod tma {
    use crate::PassOn;
    use crate::lcmc::fields::chan_alloc_req::CmceChanAllocReq;
    use tetra_core::{BitBuffer, TetraAddress, TxReporter};

    /// A frame to be sent.
    #[derive(Debug, Clone)]
    pub struct TmaUnitdataReq {
        pub carrier_num: Option<u16>,
        pub req_handle: u32,
        pub pdu: BitBuffer,
        pub main_address: TetraAddress,
        pub link_id: u32,
        pub endpoint_id: u32,
        pub stealing_permission: bool,
        pub subscriber_class: u32,
        pub air_interface_encryption: Option<u8>,
        pub stealing_repeats_flag: Option<bool>,
        pub data_category: Option<PassOn>,
        pub chan_alloc: Option<CmceChanAllocReq>,
        pub tx_reporter: Option<TxReporter>,
    }

    /// A frame that came in.
    #[derive(Debug, Clone)]
    pub struct TmaUnitdataInd {
        pub pdu: Option<BitBuffer>,
        pub main_address: TetraAddress,
        pub carrier_num: u16,
        pub link_id: u32,
        pub endpoint_id: u32,
        pub new_endpoint_id: Option<u32>,
        pub css_endpoint_id: Option<u32>,
        pub scrambling_code: u32,
        pub air_interface_encryption: u8,
        pub chan_change_response_req: bool,
        pub chan_change_handle: Option<u32>,
        pub chan_info: Option<PassOn>,
    }

    /// A report, which the link does not look at.
    #[derive(Debug, Clone)]
    pub struct TmaReportInd {}
}

/// Between link and upper layer.
pub mod tla {
    use crate::PassOn;
    use crate::lcmc::fields::chan_alloc_req::CmceChanAllocReq;
    use tetra_core::{BitBuffer, TetraAddress, TxReporter};

    /// Data to be sent acknowledged.
    #[derive(Debug, Clone)]
    pub struct TlaTlDataReqBl {
        pub main_address: TetraAddress,
        pub link_id: u32,
        pub endpoint_id: u32,
        pub tl_sdu: BitBuffer,
        pub stealing_permission: bool,
        pub subscriber_class: u32,
        pub fcs_flag: bool,
        pub air_interface_encryption: Option<u8>,
        pub stealing_repeats_flag: Option<bool>,
        pub data_class_info: Option<PassOn>,
        pub req_handle: u32,
        pub chan_alloc: Option<CmceChanAllocReq>,
        pub tx_reporter: Option<TxReporter>,
    }

    /// Data to be sent unacknowledged.
    #[derive(Debug, Clone)]
    pub struct TlaTlUnitdataReqBl {
        pub main_address: TetraAddress,
        pub link_id: u32,
        pub endpoint_id: u32,
        pub tl_sdu: BitBuffer,
        pub stealing_permission: bool,
        pub subscriber_class: u32,
        pub fcs_flag: bool,
        pub air_interface_encryption: Option<u8>,
        pub data_class_info: Option<PassOn>,
        pub req_handle: u32,
        pub chan_alloc: Option<CmceChanAllocReq>,
        pub tx_reporter: Option<TxReporter>,
    }

    /// Data that goes up.
    #[derive(Debug, Clone)]
    pub struct TlaTlDataIndBl {
        pub main_address: TetraAddress,
        pub link_id: u32,
        pub endpoint_id: u32,
        pub new_endpoint_id: Option<u32>,
        pub css_endpoint_id: Option<u32>,
        pub tl_sdu: Option<BitBuffer>,
        pub scrambling_code: u32,
        pub fcs_flag: bool,
        pub air_interface_encryption: u8,
        pub chan_change_resp_req: bool,
        pub chan_change_handle: Option<u32>,
        pub chan_info: Option<PassOn>,
        pub req_handle: u32,
    }

    /// Unacknowledged data that goes up.
    #[derive(Debug, Clone)]
    pub struct TlaTlUnitdataIndBl {
        pub main_address: TetraAddress,
        pub link_id: u32,
        pub endpoint_id: u32,
        pub new_endpoint_id: Option<u32>,
        pub css_endpoint_id: Option<u32>,
        pub tl_sdu: Option<BitBuffer>,
        pub scrambling_code: u32,
        pub fcs_flag: bool,
        pub air_interface_encryption: u8,
        pub chan_change_resp_req: bool,
        pub chan_change_handle: Option<u32>,
        pub chan_info: Option<PassOn>,
        pub report: Option<u8>,
    }
}

use tetra_core::Sap;
use tetra_core::tetra_entities::TetraEntity;

/// What a message says.
#[derive(Debug, Clone)]
pub enum SapMsgInner {
    TmaUnitdataReq(tma::TmaUnitdataReq),
    TmaUnitdataInd(tma::TmaUnitdataInd),
    TmaReportInd(tma::TmaReportInd),
    TlaTlDataReqBl(tla::TlaTlDataReqBl),
    TlaTlUnitdataReqBl(tla::TlaTlUnitdataReqBl),
    TlaTlDataIndBl(tla::TlaTlDataIndBl),
    TlaTlUnitdataIndBl(tla::TlaTlUnitdataIndBl),
}

/// A message between two entities.
#[derive(Debug, Clone)]
pub struct SapMsg {
    pub sap: Sap,
    pub src: TetraEntity,
    pub dest: TetraEntity,
    pub msg: SapMsgInner,
}

impl SapMsg {
    /// Which access point it passes.
    pub fn get_sap(&self) -> &Sap {
        &self.sap
    }

    /// Who sent it.
    pub fn get_source(&self) -> &TetraEntity {
        &self.src
    }

    /// Who gets it.
    pub fn get_dest(&self) -> &TetraEntity {
        &self.dest
    }
}
