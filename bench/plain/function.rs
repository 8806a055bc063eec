//! Functions: register pages, their programs, open Tags and tables.

use crate::header::Status;
use crate::id::Id;
use crate::packet::Packet;

/// What a Tag was opened for: by a submitted packet, or by a read line of the program.
#[derive(Clone, Copy, PartialEq, Eq, Debug)]
pub enum Use {
    Free,
    Raw,
    Line { offset: usize, size: usize },
}

#[derive(Clone, Copy, Debug)]
pub enum Target {
    Frame(usize),
    Peer(usize),
}

#[derive(Clone, Copy, Debug)]
pub struct Mapping {
    pub page: u64,
    pub target: Target,
    pub reads: bool,
    pub writes: bool,
}

pub struct Function {
    pub id: Id,
    pub domain: usize,
    pub bar: u32,
    pub page: Box<[u8; 4096]>,
    pub tags: [Use; 256],
    /// By rising pages.
    pub table: Vec<Mapping>,
}

const CONTROL: usize = 0x004;
const STATUS: usize = 0x008;
const COUNTER: usize = 0x00c;
const PROGRAM: usize = 0x100;
const BUFFER: usize = 0x400;

const STOPPED: u8 = 0;
const RUNNING: u8 = 1;
const HALTED: u8 = 2;
const FAULT: u8 = 3;

/// A good write or read line.
struct Line {
    offset: usize,
    size: usize,
    relaxed: bool,
    address: u64,
}

fn good_line(line: &[u8]) -> Option<Line> {
    let size = 4 * usize::from(line[1]);
    let offset = usize::from(u16::from_le_bytes([line[2], line[3]]));
    let address = u64::from_le_bytes(line[8..16].try_into().ok()?);
    let is_inside = (4..=256).contains(&size) && offset + size <= 1024;
    let is_within_page = (address % 4096) as usize + size <= 4096;
    (is_inside && is_within_page && offset % 4 == 0 && address % 4 == 0).then_some(Line {
        offset,
        size,
        relaxed: line[4] & 1 != 0,
        address,
    })
}

impl Function {
    pub fn new(id: Id, domain: usize, bar: u32, table: Vec<Mapping>) -> Function {
        let mut page = Box::new([0; 4096]);
        page[..4].copy_from_slice(&[id.bus(), id.0 as u8, 0x46, 0x42]);
        Function { id, domain, bar, page, tags: [Use::Free; 256], table }
    }

    /// The mapping of a page that allows this access.
    pub fn lookup(&self, page: u64, is_write: bool) -> Option<Target> {
        let at = self.table.binary_search_by_key(&page, |mapping| mapping.page).ok()?;
        let mapping = &self.table[at];
        let is_allowed = if is_write { mapping.writes } else { mapping.reads };
        is_allowed.then_some(mapping.target)
    }

    /// The next line of a running program, and what it sends.
    pub fn tick(&mut self) -> Option<Packet> {
        if self.page[STATUS] != RUNNING {
            return None;
        }
        let at = PROGRAM + 16 * usize::from(self.page[COUNTER]);
        let operation = self.page[at];
        let line = good_line(&self.page[at..at + 16]);
        match (operation, line) {
            (0, _) => self.page[STATUS] = HALTED,
            (1, Some(line)) => return Some(self.write(&line)),
            (2, Some(line)) => return self.read(&line),
            (3, _) => self.fence(),
            _ => self.page[STATUS] = FAULT,
        }
        None
    }

    fn write(&mut self, line: &Line) -> Packet {
        let start = BUFFER + line.offset;
        let packet = Packet::write_request(self.id, line.address, &self.page[start..start + line.size], line.relaxed);
        self.go_on();
        packet
    }

    fn read(&mut self, line: &Line) -> Option<Packet> {
        let tag = self.tags[..8].iter().position(|tag| *tag == Use::Free)?;
        self.tags[tag] = Use::Line { offset: line.offset, size: line.size };
        self.go_on();
        Some(Packet::read_request(self.id, tag as u8, line.address, (line.size / 4) as u16, line.relaxed))
    }

    /// Only the program's own Tags hold a fence, and those are below 8.
    fn fence(&mut self) {
        if !self.tags[..8].iter().any(|tag| matches!(tag, Use::Line { .. })) {
            self.go_on();
        }
    }

    fn go_on(&mut self) {
        self.page[COUNTER] += 1;
        if self.page[COUNTER] == 16 {
            self.page[STATUS] = HALTED;
        }
    }

    /// A memory write, or a read of at most 64 DW, of the register page; a read is answered.
    pub fn access(&mut self, packet: &Packet, is_write: bool) -> Option<Packet> {
        let range = packet.range();
        if !is_write {
            return Some(packet.success(self.id, &self.page[range]));
        }
        let is_plain = |start, end| range.start >= start && range.end <= end;
        if is_plain(PROGRAM, PROGRAM + 256) || is_plain(BUFFER, BUFFER + 1024) {
            packet.store(&mut self.page[range]);
            return None;
        }
        for (i, byte) in packet.payload().iter().enumerate() {
            if packet.is_enabled(i) {
                self.write_byte(range.start + i, *byte);
            }
        }
        None
    }

    fn write_byte(&mut self, at: usize, byte: u8) {
        match at {
            CONTROL => self.control(byte & 1),
            0x100..=0x1ff | 0x400..=0x7ff => self.page[at] = byte,
            _ => {}
        }
    }

    fn control(&mut self, value: u8) {
        self.page[CONTROL] = value;
        self.page[STATUS] = if value == 1 { RUNNING } else { STOPPED };
        if value == 1 {
            self.page[COUNTER] = 0;
        }
    }

    /// Closes an open Tag. What a read line waits for goes to the buffer, or is a fault.
    pub fn close(&mut self, tag: u8, status: Status, payload: &[u8]) {
        let tag = &mut self.tags[usize::from(tag)];
        if let Use::Line { offset, size } = *tag {
            if status == Status::Success && payload.len() == size {
                self.page[BUFFER + offset..][..size].copy_from_slice(payload);
            } else {
                self.page[STATUS] = FAULT;
            }
        }
        *tag = Use::Free;
    }
}
