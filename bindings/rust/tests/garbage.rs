//! Any bytes get one answer, and a refused call leaves the link as it was.
use wipturay::{AddressRow, Bits, Frame, Link, Receipt, SsiType, TdmaTime, TetraAddress};

/// Numbers that look random (xorshift).
struct Random(u64);

impl Random {
    fn below(&mut self, bound: usize) -> usize {
        self.0 ^= self.0 << 13;
        self.0 ^= self.0 >> 7;
        self.0 ^= self.0 << 17;
        (self.0 >> 11) as usize % bound
    }

    fn bytes(&mut self, len: usize) -> Vec<u8> {
        (0..len).map(|_| self.below(256) as u8).collect()
    }
}

/// All that a link shows.
fn shown(link: &Link) -> (String, u16, u16, Vec<AddressRow>, Vec<Option<Receipt>>) {
    let receipts = (0..128).map(|number| link.receipt(number)).collect();
    (
        format!("{link:?}"),
        link.main_carrier(),
        link.t251(),
        link.address_rows().collect(),
        receipts,
    )
}

/// Calls that are accepted, one after the other.
const CALLS: [&[u8]; 8] = [
    b"\x21\x00\x04\x05\xfa\x00\x04",
    b"\x22\x00\x05\x00\x00\x01\x01\x03",
    b"\x24\x00\x1b\x00\x03\xe9\x01\x00\x00\x00\0\0\0\0\0\0\0\0\0\0\0\x2a\x00\x00\x07\x00\x00\x10\x4d\x31",
    b"\x25\x00\x1b\x00\x03\xe9\x02\x01\x00\x07\0\0\0\0\0\0\0\0\0\0\0\x2a\x05\x03\x08\x00\x00\x10\x4d\x31",
    b"\x26\x00\x12\x00\x03\xe9\x01\x05\xfa\0\0\0\0\0\0\0\0\x00\x00\x05\x18",
    b"\x23\x00\x00",
    b"\x27\x00\x02\x08\x01",
    b"\x28\x00\x01\x08",
];

#[test]
fn any_bytes_get_one_answer() {
    let mut random = Random(0x2545_f491_4f6c_dd1d);
    let mut link = Link::new();
    let mut numbers = [0; 17];
    for round in 0..30_000 {
        let bytes = match round % 3 {
            // Bytes of any kind.
            0 => {
                let len = random.below(80);
                random.bytes(len)
            }
            // A known tag and a length that is right, and then any bytes.
            1 => {
                let len = random.below(40);
                let mut bytes = vec![0x21 + random.below(8) as u8, 0, len as u8];
                bytes.extend(random.bytes(len));
                bytes
            }
            // A call, as it is or with one byte changed.
            _ => {
                let mut bytes = CALLS[random.below(8)].to_vec();
                if random.below(2) == 0 {
                    let at = random.below(bytes.len());
                    bytes[at] = random.below(256) as u8;
                }
                bytes
            }
        };
        let before = shown(&link);
        let number = match link.call(&bytes) {
            Ok(mut records) => {
                records.by_ref().for_each(drop);
                assert_eq!(records.as_bytes(), [], "bytes that are no record");
                0
            }
            Err(refused) => refused.number(),
        };
        numbers[usize::from(number)] += 1;
        assert!(
            number == 0 || shown(&link) == before,
            "{number} changed the link: {bytes:02x?}"
        );
    }
    assert_eq!(numbers[1], 0, "the link's own memory is never wrong");
    for number in [0, 2, 3, 4, 5, 6, 15, 16] {
        assert!(numbers[number] > 0, "{number} never came: {numbers:?}");
    }

    // It still works.
    link.start(1, 1).unwrap();
    let radio = TetraAddress::new(0x3e9, SsiType::Issi).unwrap();
    link.frame(&Frame::new(radio, 1, Bits::new(&[0x18], 5).unwrap())).unwrap();
    assert_eq!(link.tick_end().unwrap().next().unwrap().main_address, radio);
    assert_eq!(link.time(), TdmaTime { h: 0, m: 1, f: 1, t: 1 });
}

#[test]
fn long_bytes_are_no_call() {
    let mut link = Link::new();
    for len in [65_538, 65_539, 1_000_000] {
        assert_eq!(link.call(&vec![0x24; len]).unwrap_err().number(), 2);
    }
}
