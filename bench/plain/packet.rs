//! Packets: making requests and completions, and what is done with their payload.

use crate::header::{Header, Kind, Status};
use crate::id::Id;

/// A packet with its header, read once.
#[derive(Debug)]
pub struct Packet {
    pub header: Header,
    pub bytes: Vec<u8>,
}

impl Packet {
    pub fn read(bytes: Vec<u8>) -> Packet {
        Packet { header: Header::read(&bytes), bytes }
    }

    /// A read of so many DW: all bytes enabled, no relaxed ordering unless it is asked for.
    pub fn read_request(requester: Id, tag: u8, address: u64, dws: u16, relaxed: bool) -> Packet {
        Packet::request(requester, tag, address, dws, relaxed, None)
    }

    /// A write of whole DWs, at most 64. It has tag 0.
    pub fn write_request(requester: Id, address: u64, data: &[u8], relaxed: bool) -> Packet {
        Packet::request(requester, 0, address, (data.len() / 4) as u16, relaxed, Some(data))
    }

    fn request(requester: Id, tag: u8, address: u64, dws: u16, relaxed: bool, data: Option<&[u8]>) -> Packet {
        let is_wide = address >> 32 != 0;
        let (first, last) = (15, if dws == 1 { 0 } else { 15 });
        let form = u8::from(is_wide) << 5 | u8::from(data.is_some()) << 6;
        let mut bytes = Vec::with_capacity(16 + data.map_or(0, <[u8]>::len));
        bytes.extend([form, 0, u8::from(relaxed) << 5, dws as u8]);
        bytes.extend(requester.0.to_be_bytes());
        bytes.extend([tag, last << 4 | first]);
        if is_wide {
            bytes.extend(address.to_be_bytes());
        } else {
            bytes.extend((address as u32).to_be_bytes());
        }
        bytes.extend(data.unwrap_or(&[]));
        let header = Header::new(if data.is_some() { Kind::MWr } else { Kind::MRd });
        let size = if is_wide { 16 } else { 12 };
        Packet { header: Header { size, relaxed, tag, first, last, dws, requester, address, ..header }, bytes }
    }

    /// The same memory request at an address below 4 GB, in the short form.
    pub fn moved(mut self, address: u32) -> Packet {
        if self.header.size == 16 {
            self.bytes.drain(8..12);
            self.bytes[0] &= !0x20;
            self.header.size = 12;
        }
        self.bytes[8..12].copy_from_slice(&address.to_be_bytes());
        self.header.address = u64::from(address);
        self
    }

    /// A completion without data that says why this request isn't served.
    pub fn refusal(&self, completer: Id, status: Status) -> Packet {
        self.completion(completer, status, 4, 0, &[])
    }

    /// The completion of this read. A read of no bytes shows one DW of zeros.
    pub fn success(&self, completer: Id, stored: &[u8]) -> Packet {
        let Header { first, last, dws, address, .. } = self.header;
        if first == 0 {
            return self.completion(completer, Status::Success, 1, address as u8 & 0x7c, &[0; 4]);
        }
        let ending = if dws == 1 { first } else { last };
        let skipped = first.trailing_zeros() as u16;
        // The enables are the low four bits of a byte.
        let unused = ending.leading_zeros() as u16 - 4;
        let lower = address as u8 & 0x7c | skipped as u8;
        self.completion(completer, Status::Success, 4 * dws - skipped - unused, lower, stored)
    }

    /// The completion of this FetchAdd, with what stood there.
    pub fn old_value(&self, completer: Id, stored: &[u8]) -> Packet {
        self.completion(completer, Status::Success, 4 * self.header.dws, 0, stored)
    }

    fn completion(&self, completer: Id, status: Status, count: u16, lower: u8, data: &[u8]) -> Packet {
        let Header { requester, tag, relaxed, .. } = self.header;
        let (form, kind) = if data.is_empty() { (0x0a, Kind::Cpl) } else { (0x4a, Kind::CplD) };
        let mut bytes = Vec::with_capacity(12 + data.len());
        bytes.extend([form, self.bytes[1] & 0x04, self.bytes[2] & 0x30, (data.len() / 4) as u8]);
        bytes.extend(completer.0.to_be_bytes());
        bytes.extend([(status as u8) << 5 | (count >> 8) as u8, count as u8]);
        bytes.extend(requester.0.to_be_bytes());
        bytes.extend([tag, lower]);
        bytes.extend(data);
        Packet { header: Header { status, size: 12, relaxed, tag, requester, ..Header::new(kind) }, bytes }
    }

    pub fn payload(&self) -> &[u8] {
        &self.bytes[usize::from(self.header.size)..]
    }

    /// Data cost a credit for each 16 bytes begun; those of malformed bytes cost nothing.
    pub fn data_credits(&self) -> u32 {
        match self.header.kind {
            Kind::Malformed(_) => 0,
            _ => self.payload().len().div_ceil(16) as u32,
        }
    }

    /// Is byte i of the payload enabled?
    pub fn is_enabled(&self, i: usize) -> bool {
        let Header { first, last, dws, .. } = self.header;
        let enables = match i / 4 {
            0 => first,
            dw if dw + 1 == usize::from(dws) => last,
            _ => 15,
        };
        enables >> (i % 4) & 1 != 0
    }

    /// Writes the enabled bytes of a write to their places.
    pub fn store(&self, places: &mut [u8]) {
        let Header { first, last, dws, .. } = self.header;
        if first == 15 && (last == 15 || dws == 1) {
            return places.copy_from_slice(self.payload());
        }
        for (i, (place, byte)) in places.iter_mut().zip(self.payload()).enumerate() {
            if self.is_enabled(i) {
                *place = *byte;
            }
        }
    }

    /// Adds the operand of a FetchAdd, the low byte first, to what stands there.
    pub fn add(&self, places: &mut [u8]) {
        let mut carry = 0;
        for (place, byte) in places.iter_mut().zip(self.payload()) {
            let sum = u16::from(*place) + u16::from(*byte) + carry;
            *place = sum as u8;
            carry = sum >> 8;
        }
    }

    /// The bytes of a page that this request is about.
    pub fn range(&self) -> std::ops::Range<usize> {
        let start = (self.header.address % 4096) as usize;
        start..start + 4 * usize::from(self.header.dws)
    }
}
