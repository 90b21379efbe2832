//! The list of calls that tests/oracle stores, with the answers that the Rust gave: the link gives them too, by bytes and by
//! its methods, and each record is put together again from its fields.
use common::try_hex;
use std::fs;
use wipturay::{Bits, Block, Frame, Link, Record, Records, Refused, Report, Request, SsiType, TdmaTime, TetraAddress};

mod common;

fn read(name: &str) -> String {
    let path = format!("{}/../../{name}", env!("CARGO_MANIFEST_DIR"));
    fs::read_to_string(&path).expect(&path)
}

/// The bytes of a record, from its fields.
fn put_together(record: &Record<'_>) -> Vec<u8> {
    fn put(bytes: &mut Vec<u8>, tag: u8, value: Option<&[u8]>) {
        if let Some(value) = value {
            bytes.push(tag);
            bytes.extend((value.len() as u16).to_be_bytes());
            bytes.extend(value);
        }
    }
    let address = record.main_address;
    let bytes = &mut Vec::new();
    put(bytes, 0x01, Some(&[record.kind as u8]));
    put(bytes, 0x02, Some(&address.ssi().to_be_bytes()[1..]));
    put(bytes, 0x03, Some(&[address.ssi_type() as u8]));
    put(bytes, 0x04, record.carrier_num.map(u16::to_be_bytes).as_ref().map(|b| &b[..]));
    put(bytes, 0x05, Some(&record.link_id.to_be_bytes()));
    put(bytes, 0x06, Some(&record.endpoint_id.to_be_bytes()));
    put(bytes, 0x07, record.req_handle.map(u32::to_be_bytes).as_ref().map(|b| &b[..]));
    put(
        bytes,
        0x08,
        record.stealing_permission.map(|flag| [flag as u8]).as_ref().map(|b| &b[..]),
    );
    put(bytes, 0x09, record.mask.map(|mask| [mask]).as_ref().map(|b| &b[..]));
    put(bytes, 0x0a, record.receipt.map(|receipt| [receipt]).as_ref().map(|b| &b[..]));
    put(bytes, 0x0b, record.block);
    put(bytes, 0x0d, record.fcs_flag.map(|flag| [flag as u8]).as_ref().map(|b| &b[..]));
    let counted = |bits: Bits<'_>| [&(bits.len() as u16).to_be_bytes(), bits.bytes()].concat();
    put(bytes, 0x0c, record.bits.map(counted).as_deref());
    bytes.to_vec()
}

/// The lines that the runner prints for an answer.
fn print(answer: Result<Records<'_>, Refused>, lines: &mut Vec<String>) {
    match answer {
        Err(refused) => lines.push(refused.number().to_string()),
        Ok(mut records) => {
            lines.push("0".into());
            for record in records.by_ref() {
                lines.push(put_together(&record).iter().map(|byte| format!("{byte:02x}")).collect());
            }
            assert_eq!(records.as_bytes(), [], "bytes that are no record");
        }
    }
}

/// Takes a number of N bytes off the front.
fn number<const N: usize>(bytes: &mut &[u8]) -> Option<u32> {
    let (number, rest) = bytes.split_first_chunk::<N>()?;
    *bytes = rest;
    Some(number.iter().fold(0, |n, byte| n << 8 | u32::from(*byte)))
}

fn address(bytes: &mut &[u8]) -> Option<TetraAddress> {
    let ssi = number::<3>(bytes)?;
    let ssi_type = match number::<1>(bytes)? {
        1 => SsiType::Issi,
        2 => SsiType::Gssi,
        _ => return None,
    };
    TetraAddress::new(ssi, ssi_type).ok()
}

/// Takes a block and then the bits, which fill the rest. One bit more than are counted is set behind them where there is room,
/// which the link has to clear.
fn block_and_bits<'a>(bytes: &mut &'a [u8], spoilt: &'a mut Vec<u8>) -> Option<(Block<'a>, Bits<'a>)> {
    let len = number::<1>(bytes)? as usize;
    let (block, rest) = bytes.split_at_checked(len)?;
    *bytes = rest;
    let count = number::<2>(bytes)? as usize;
    if bytes.len() != count.div_ceil(8) {
        return None;
    }
    *spoilt = bytes.to_vec();
    if let Some(last) = spoilt.last_mut() {
        let spare = bytes.len() * 8 - count;
        if *last & !(0xff << spare) != 0 {
            return None;
        }
        *last |= !(0xff << spare);
    }
    Some((Block::new(block).ok()?, Bits::new(spoilt, count).ok()?))
}

/// Makes a call by the method for it, if there is one for these bytes.
fn by_method<'a>(link: &'a mut Link, call: &[u8]) -> Option<Result<Records<'a>, Refused>> {
    let mut bytes = call;
    let tag = number::<1>(&mut bytes)?;
    if number::<2>(&mut bytes)? as usize != bytes.len() {
        return None;
    }
    let bytes = &mut bytes;
    let spoilt = &mut Vec::new();
    let answer = match tag {
        0x21 if bytes.len() == 4 => link.start(number::<2>(bytes)? as u16, number::<2>(bytes)? as u16),
        0x22 if bytes.len() == 5 => link.tick_start(TdmaTime {
            h: number::<2>(bytes)? as u16,
            m: number::<1>(bytes)? as u8,
            f: number::<1>(bytes)? as u8,
            t: number::<1>(bytes)? as u8,
        }),
        0x23 if bytes.is_empty() => link.tick_end(),
        0x24 | 0x25 => {
            let main_address = address(bytes)?;
            let carrier_num = match (number::<1>(bytes)?, number::<2>(bytes)?) {
                (0, 0) => None,
                (1, carrier) => Some(carrier as u16),
                _ => return None,
            };
            let (link_id, endpoint_id, req_handle) = (number::<4>(bytes)?, number::<4>(bytes)?, number::<4>(bytes)?);
            let flags = number::<1>(bytes)?;
            let mask = match (flags, number::<1>(bytes)? as u8) {
                (0..=3, 0) => None,
                (4..=7, mask) => Some(mask),
                _ => return None,
            };
            let receipt = number::<1>(bytes)? as u8;
            let (block, tl_sdu) = block_and_bits(bytes, spoilt)?;
            let request = Request {
                main_address,
                carrier_num,
                link_id,
                endpoint_id,
                req_handle,
                stealing_permission: flags & 1 != 0,
                fcs_flag: flags & 2 != 0,
                mask,
                receipt,
                block,
                tl_sdu,
            };
            match tag {
                0x24 => link.data_request(&request),
                _ => link.unitdata_request(&request),
            }
        }
        0x26 => {
            let main_address = address(bytes)?;
            let carrier_num = number::<2>(bytes)? as u16;
            let (link_id, endpoint_id) = (number::<4>(bytes)?, number::<4>(bytes)?);
            let (block, pdu) = block_and_bits(bytes, spoilt)?;
            link.frame(&Frame {
                main_address,
                carrier_num,
                link_id,
                endpoint_id,
                block,
                pdu,
            })
        }
        0x27 => match bytes {
            [receipt, 1] => link.report(*receipt, Report::Transmitted),
            [receipt, 2] => link.report(*receipt, Report::Discarded),
            _ => return None,
        },
        0x28 if bytes.len() == 1 => link.release(bytes[0]),
        _ => return None,
    };
    Some(answer)
}

/// The bytes that a line spells for the runner: digits alone, and at most 4,096 of them.
fn spelled(line: &str) -> Option<Vec<u8>> {
    try_hex(line).filter(|_| line.len() <= 4096 && !line.contains(' '))
}

#[test]
fn the_stored_calls_get_the_stored_answers() {
    let (mut raw, mut methods) = (Link::new(), Link::new());
    let (mut by_bytes, mut by_methods, mut made) = (Vec::new(), Vec::new(), [0; 8]);
    for line in read("tests/oracle/stored.calls").lines() {
        let Some(call) = spelled(line) else {
            by_bytes.push("2".to_string());
            by_methods.push("2".to_string());
            continue;
        };
        print(raw.call(&call), &mut by_bytes);
        match by_method(&mut methods, &call) {
            Some(answer) => {
                print(answer, &mut by_methods);
                made[usize::from(call[0]) - 0x21] += 1;
            }
            None => print(methods.call(&call), &mut by_methods),
        }
    }
    let stored = read("tests/oracle/stored.answers");
    assert!(by_bytes.iter().eq(stored.lines()), "by bytes");
    assert!(by_methods.iter().eq(stored.lines()), "by methods");
    assert!(made.iter().all(|count| *count > 10), "each method often: {made:?}");
}
