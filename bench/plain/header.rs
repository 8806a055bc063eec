//! Headers of packets, read once: what the bytes say, or the first cause that makes them malformed.

use crate::id::Id;

#[derive(Clone, Copy, PartialEq, Eq, Debug)]
pub enum Class {
    Posted,
    NonPosted,
    Completion,
}

pub const CLASSES: [Class; 3] = [Class::Posted, Class::NonPosted, Class::Completion];

/// Kinds of packets by their names in the formats.
#[derive(Clone, Copy, PartialEq, Eq, Debug)]
pub enum Kind {
    Malformed(Cause),
    MRd,
    MRdLk,
    MWr,
    IORd,
    IOWr,
    CfgRd0,
    CfgWr0,
    CfgRd1,
    CfgWr1,
    Msg,
    MsgD,
    Cpl,
    CplD,
    CplLk,
    CplDLk,
    FetchAdd,
    Swap,
    CAS,
}

impl Kind {
    /// By Fmt and Type.
    fn of(format: u8, code: u8) -> Option<Kind> {
        let kind = match (format, code) {
            (0 | 1, 0) => Kind::MRd,
            (0 | 1, 1) => Kind::MRdLk,
            (2 | 3, 0) => Kind::MWr,
            (0, 2) => Kind::IORd,
            (2, 2) => Kind::IOWr,
            (0, 4) => Kind::CfgRd0,
            (2, 4) => Kind::CfgWr0,
            (0, 5) => Kind::CfgRd1,
            (2, 5) => Kind::CfgWr1,
            (1, 16..=23) => Kind::Msg,
            (3, 16..=23) => Kind::MsgD,
            (0, 10) => Kind::Cpl,
            (2, 10) => Kind::CplD,
            (0, 11) => Kind::CplLk,
            (2, 11) => Kind::CplDLk,
            (2 | 3, 12) => Kind::FetchAdd,
            (2 | 3, 13) => Kind::Swap,
            (2 | 3, 14) => Kind::CAS,
            _ => return None,
        };
        Some(kind)
    }

    /// Malformed bytes travel as posted.
    fn class(self) -> Class {
        match self {
            Kind::MWr | Kind::Msg | Kind::MsgD | Kind::Malformed(_) => Class::Posted,
            Kind::Cpl | Kind::CplD | Kind::CplLk | Kind::CplDLk => Class::Completion,
            _ => Class::NonPosted,
        }
    }

    /// Ports take no requests of other kinds than those with an address.
    pub fn has_address(self) -> bool {
        matches!(self, Kind::MRd | Kind::MWr | Kind::FetchAdd)
    }

    /// May its Length be so many DW?
    fn may_have(self, dws: u16) -> bool {
        use Kind::*;
        match self {
            IORd | IOWr | CfgRd0 | CfgWr0 | CfgRd1 | CfgWr1 => dws == 1,
            FetchAdd => dws <= 2,
            _ => true,
        }
    }
}

/// Why bytes are malformed. The first cause that applies is named, in this order.
#[derive(Clone, Copy, PartialEq, Eq, Debug)]
pub enum Cause {
    Short,
    Kind,
    Size,
    Enables,
    Crosses,
    HighForm,
    Field,
}

#[derive(Clone, Copy, PartialEq, Eq, Debug)]
pub enum Status {
    Success = 0,
    Unsupported = 1,
    Retry = 2,
    Abort = 4,
}

impl Status {
    fn of_bits(bits: u8) -> Option<Status> {
        match bits {
            0 => Some(Status::Success),
            1 => Some(Status::Unsupported),
            2 => Some(Status::Retry),
            4 => Some(Status::Abort),
            _ => None,
        }
    }

    pub fn name(self) -> &'static str {
        match self {
            Status::Success => "SC",
            Status::Unsupported => "UR",
            Status::Retry => "CRS",
            Status::Abort => "CA",
        }
    }
}

/// The header fields that somebody looks at. Those that a kind hasn't are 0.
#[derive(Clone, Copy, Debug)]
pub struct Header {
    pub kind: Kind,
    pub class: Class,
    pub status: Status,
    /// Header size in bytes.
    pub size: u8,
    pub relaxed: bool,
    pub address_type: u8,
    pub tag: u8,
    pub first: u8,
    pub last: u8,
    /// Length in DW, 1 to 1,024, also where the kind has no data.
    pub dws: u16,
    pub requester: Id,
    pub address: u64,
}

impl Header {
    /// A header of which nothing but the kind is known yet.
    pub fn new(kind: Kind) -> Header {
        Header {
            kind,
            class: kind.class(),
            status: Status::Success,
            size: 0,
            relaxed: false,
            address_type: 0,
            tag: 0,
            first: 0,
            last: 0,
            dws: 0,
            requester: Id(0),
            address: 0,
        }
    }

    /// Of any bytes.
    pub fn read(bytes: &[u8]) -> Header {
        well_formed(bytes).unwrap_or_else(|cause| Header::new(Kind::Malformed(cause)))
    }
}

fn word(bytes: &[u8], at: usize) -> u32 {
    u32::from_be_bytes([bytes[at], bytes[at + 1], bytes[at + 2], bytes[at + 3]])
}

fn id_at(bytes: &[u8], at: usize) -> Id {
    Id(u16::from_be_bytes([bytes[at], bytes[at + 1]]))
}

fn refuse_if(is_malformed: bool, cause: Cause) -> Result<(), Cause> {
    if is_malformed {
        Err(cause)
    } else {
        Ok(())
    }
}

/// The fields of well-formed bytes, or the first cause that applies.
fn well_formed(bytes: &[u8]) -> Result<Header, Cause> {
    let opcode = *bytes.first().ok_or(Cause::Short)?;
    let is_wide = opcode & 0x20 != 0;
    let has_data = opcode & 0x40 != 0;
    let size = if is_wide { 16 } else { 12 };
    refuse_if(bytes.len() < size, Cause::Short)?;
    let kind = Kind::of(opcode >> 5, opcode & 31).ok_or(Cause::Kind)?;
    // A field of 0 stands for 1,024.
    let dws = ((word(bytes, 0) & 0x3ff).wrapping_sub(1) & 0x3ff) as u16 + 1;
    let data = if has_data { 4 * usize::from(dws) } else { 0 };
    let is_sized = bytes.len() == size + data && data <= 256 && kind.may_have(dws);
    refuse_if(!is_sized, Cause::Size)?;
    let relaxed = bytes[2] & 0x20 != 0;
    let common = Header { size: size as u8, dws, relaxed, ..Header::new(kind) };
    let header = match (kind, common.class) {
        (Kind::MRd | Kind::MWr, _) => memory(bytes, is_wide, common)?,
        (Kind::FetchAdd, _) => fetch_add(bytes, is_wide, common)?,
        (_, Class::Completion) => completion(bytes, common)?,
        _ => Header { requester: id_at(bytes, 4), tag: bytes[6], ..common },
    };
    // T9, TC, T8, LN and TH of byte 1, TD and EP of byte 2.
    refuse_if(bytes[1] & 0xfb != 0 || bytes[2] & 0xc0 != 0, Cause::Field)?;
    Ok(header)
}

fn address_in(bytes: &[u8], is_wide: bool) -> u64 {
    let low = u64::from(word(bytes, if is_wide { 12 } else { 8 }));
    let high = if is_wide { u64::from(word(bytes, 8)) } else { 0 };
    high << 32 | low
}

/// Byte 7 isn't looked at.
fn fetch_add(bytes: &[u8], is_wide: bool, common: Header) -> Result<Header, Cause> {
    let address = address_in(bytes, is_wide);
    refuse_if(is_wide && address >> 32 == 0, Cause::HighForm)?;
    refuse_if(address % (4 * u64::from(common.dws)) != 0, Cause::Field)?;
    let address_type = bytes[2] >> 2 & 3;
    Ok(Header { requester: id_at(bytes, 4), tag: bytes[6], address_type, address, ..common })
}

fn memory(bytes: &[u8], is_wide: bool, common: Header) -> Result<Header, Cause> {
    let address = address_in(bytes, is_wide);
    let (first, last) = (bytes[7] & 15, bytes[7] >> 4);
    refuse_if(!are_enables(first, last, common.dws, address), Cause::Enables)?;
    refuse_if((address & !3) % 4096 + 4 * u64::from(common.dws) > 4096, Cause::Crosses)?;
    refuse_if(is_wide && address >> 32 == 0, Cause::HighForm)?;
    refuse_if(address % 4 != 0, Cause::Field)?;
    let address_type = bytes[2] >> 2 & 3;
    Ok(Header { requester: id_at(bytes, 4), tag: bytes[6], address_type, first, last, address, ..common })
}

fn are_enables(first: u8, last: u8, dws: u16, address: u64) -> bool {
    if dws == 1 {
        return last == 0;
    }
    let may_be_sparse = dws == 2 && address % 8 == 0;
    first != 0 && last != 0 && (may_be_sparse || matches!(first, 15 | 14 | 12 | 8) && matches!(last, 15 | 7 | 3 | 1))
}

fn completion(bytes: &[u8], common: Header) -> Result<Header, Cause> {
    refuse_if(bytes[6] & 0x10 != 0, Cause::Field)?;
    let status = Status::of_bits(bytes[6] >> 5).ok_or(Cause::Field)?;
    Ok(Header { requester: id_at(bytes, 8), tag: bytes[10], status, ..common })
}
