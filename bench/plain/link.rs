//! Queues of three classes, and the directions of links with their credits.

use crate::header::{Class, CLASSES};
use crate::packet::Packet;
use std::collections::VecDeque;

/// Places of a class in an egress queue.
const EGRESS: usize = 16;

/// Who made a packet, and for whom, beside what its header says. Functions stand here by their numbers.
#[derive(Clone, Copy, Debug)]
pub enum Party {
    /// A function submitted it or its program sent it.
    Function(u8),
    /// A request of the host to a function.
    Host(u8),
    /// A completion by the host.
    HostAnswer,
    /// A completion by a function.
    FunctionAnswer(u8),
    /// A completion by a port. It goes to the function on this bus, whatever Requester ID it bears.
    PortAnswer(u8),
}

/// A packet under way, with the domain that made it and its number there.
#[derive(Debug)]
pub struct Frame {
    pub home: u8,
    pub party: Party,
    pub number: u64,
    /// Did a port let it through to the function below another port of its switch?
    pub is_direct: bool,
    pub packet: Packet,
}

/// Packets by class, each with its arrival number.
#[derive(Default)]
pub struct Queue {
    lanes: [VecDeque<(u64, Frame)>; 3],
    arrivals: u64,
}

impl Queue {
    pub fn put(&mut self, frame: Frame) {
        self.lanes[frame.packet.header.class as usize].push_back((self.arrivals, frame));
        self.arrivals += 1;
    }

    pub fn is_full(&self, class: Class) -> bool {
        self.lanes[class as usize].len() >= EGRESS
    }

    /// The oldest packet of the class, unless it isn't posted and an older posted one waits.
    pub fn head(&self, class: Class) -> Option<&Frame> {
        let (number, frame) = self.lanes[class as usize].front()?;
        match self.lanes[Class::Posted as usize].front() {
            Some((posted, _)) if posted < number => None,
            _ => Some(frame),
        }
    }

    /// Takes what `head` shows, or would show.
    pub fn take(&mut self, class: Class) -> Option<Frame> {
        self.head(class)?;
        self.lanes[class as usize].pop_front().map(|(_, frame)| frame)
    }
}

/// Header and data credits of one class.
#[derive(Clone, Copy, Default)]
struct Credits {
    headers: u32,
    data: u32,
}

/// One direction of a link, from the sender's queue to the receiver's.
#[derive(Default)]
pub struct Channel {
    pub egress: Queue,
    wire: VecDeque<Frame>,
    ingress: Queue,
    /// What the sender may still send, by class.
    left: [Credits; 3],
    /// What the receiver freed and wasn't advertised to the sender yet.
    freed: [Credits; 3],
    has_freed: bool,
}

impl Channel {
    /// With the limits of a `credit` line: headers and data of each class in turn.
    pub fn new(limits: &[u32; 6]) -> Channel {
        let left = CLASSES.map(|class| {
            let at = 2 * class as usize;
            Credits { headers: limits[at], data: limits[at + 1] }
        });
        Channel { left, ..Channel::default() }
    }

    /// Puts the eligible packet of a class on the wire, if credits allow it.
    pub fn send(&mut self, class: Class) -> bool {
        let Some(head) = self.egress.head(class) else {
            return false;
        };
        let data = head.packet.data_credits();
        let left = &mut self.left[class as usize];
        if left.headers == 0 || left.data < data {
            return false;
        }
        left.headers -= 1;
        left.data -= data;
        self.wire.extend(self.egress.take(class));
        true
    }

    pub fn receive(&mut self) -> bool {
        let Some(frame) = self.wire.pop_front() else {
            return false;
        };
        self.ingress.put(frame);
        true
    }

    /// Sends an UpdateFC: the sender gets what was freed.
    pub fn send_update_fc(&mut self) -> bool {
        if !self.has_freed {
            return false;
        }
        for (left, freed) in self.left.iter_mut().zip(&mut self.freed) {
            left.headers += freed.headers;
            left.data += freed.data;
            *freed = Credits::default();
        }
        self.has_freed = false;
        true
    }

    pub fn arrived(&self, class: Class) -> Option<&Frame> {
        self.ingress.head(class)
    }

    /// Takes what `arrived` shows, and frees its credits.
    pub fn take(&mut self, class: Class) -> Option<Frame> {
        let frame = self.ingress.take(class)?;
        let freed = &mut self.freed[class as usize];
        freed.headers += 1;
        freed.data += frame.packet.data_credits();
        self.has_freed = true;
        Some(frame)
    }
}
