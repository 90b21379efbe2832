//! The messages that hand a call to the Rust.
use crate::call::{Frame, Request};
use tetra_core::tetra_entities::TetraEntity;
use tetra_core::{BitBuffer, Sap, SsiType, TetraAddress, TxReporter};
use tetra_saps::lcmc::enums::alloc_type::ChanAllocType;
use tetra_saps::lcmc::enums::ul_dl_assignment::UlDlAssignment;
use tetra_saps::lcmc::fields::chan_alloc_req::CmceChanAllocReq;
use tetra_saps::tla::{TlaTlDataReqBl, TlaTlUnitdataReqBl};
use tetra_saps::tma::TmaUnitdataInd;
use tetra_saps::{PassOn, SapMsg, SapMsgInner};

/// An address.
fn address(ssi: u32, kind: u8) -> TetraAddress {
    TetraAddress { ssi, ssi_type: if kind == 2 { SsiType::Gssi } else { SsiType::Issi } }
}

/// A buffer of `count` bits.
fn buffer(bits: &[u8], count: u16) -> BitBuffer {
    let mut buffer = BitBuffer::from_bytes(bits);
    buffer.set_raw_end(count as usize);
    buffer
}

/// A block.
fn pass_on(block: &[u8]) -> PassOn {
    let mut bytes = [0; 64];
    bytes[..block.len()].copy_from_slice(block);
    PassOn { len: block.len() as u8, bytes, has_mask: false, fcs_asked_by: None }
}

/// The block of a request with a tag, and which flags came with it.
fn pass_on_of(request: &Request, tag: u8) -> PassOn {
    let (has_mask, asks_fcs) = (request.flags & 4 != 0, request.flags & 2 != 0);
    PassOn { has_mask, fcs_asked_by: asks_fcs.then_some(tag), ..pass_on(&request.block) }
}

/// The channel that a request asks for: its carrier and its mask, if it has one of them.
fn channel(request: &Request) -> Option<CmceChanAllocReq> {
    let has_mask = request.flags & 4 != 0;
    (has_mask || request.carrier_given == 1).then(|| CmceChanAllocReq {
        usage: None,
        timeslots: std::array::from_fn(|slot| request.mask >> slot & 1 == 1),
        alloc_type: ChanAllocType::Additional,
        ul_dl_assigned: UlDlAssignment::Dl,
        carrier: (request.carrier_given == 1).then_some(request.carrier),
    })
}

/// A data request.
pub fn data(request: &Request, reporter: TxReporter) -> SapMsg {
    SapMsg {
        sap: Sap::TlaSap,
        src: TetraEntity::Mle,
        dest: TetraEntity::Llc,
        msg: SapMsgInner::TlaTlDataReqBl(TlaTlDataReqBl {
            main_address: address(request.ssi, request.kind),
            link_id: request.link,
            endpoint_id: request.endpoint,
            tl_sdu: buffer(&request.bits, request.bit_count),
            stealing_permission: request.flags & 1 != 0,
            subscriber_class: 0,
            fcs_flag: request.flags & 2 != 0,
            air_interface_encryption: None,
            stealing_repeats_flag: None,
            data_class_info: Some(pass_on_of(request, 0x24)),
            req_handle: request.handle,
            chan_alloc: channel(request),
            tx_reporter: Some(reporter),
        }),
    }
}

/// A unitdata request.
pub fn unitdata(request: &Request, reporter: TxReporter) -> SapMsg {
    SapMsg {
        sap: Sap::TlaSap,
        src: TetraEntity::Mle,
        dest: TetraEntity::Llc,
        msg: SapMsgInner::TlaTlUnitdataReqBl(TlaTlUnitdataReqBl {
            main_address: address(request.ssi, request.kind),
            link_id: request.link,
            endpoint_id: request.endpoint,
            tl_sdu: buffer(&request.bits, request.bit_count),
            stealing_permission: request.flags & 1 != 0,
            subscriber_class: 0,
            fcs_flag: request.flags & 2 != 0,
            air_interface_encryption: None,
            data_class_info: Some(pass_on_of(request, 0x25)),
            req_handle: request.handle,
            chan_alloc: channel(request),
            tx_reporter: Some(reporter),
        }),
    }
}

/// A frame that came in.
pub fn frame(frame: &Frame) -> SapMsg {
    SapMsg {
        sap: Sap::TmaSap,
        src: TetraEntity::Umac,
        dest: TetraEntity::Llc,
        msg: SapMsgInner::TmaUnitdataInd(TmaUnitdataInd {
            pdu: Some(buffer(&frame.bits, frame.bit_count)),
            main_address: address(frame.ssi, frame.kind),
            carrier_num: frame.carrier,
            link_id: frame.link,
            endpoint_id: frame.endpoint,
            new_endpoint_id: None,
            css_endpoint_id: None,
            scrambling_code: 0,
            air_interface_encryption: 0,
            chan_change_response_req: false,
            chan_change_handle: None,
            chan_info: Some(pass_on(&frame.block)),
        }),
    }
}
