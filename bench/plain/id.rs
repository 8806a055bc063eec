//! IDs of functions, ports and hosts: bus, device and function in 16 bits.

use std::fmt;

#[derive(Clone, Copy, PartialEq, Eq, PartialOrd, Ord, Debug)]
pub struct Id(pub u16);

impl Id {
    /// Device 0, function 0 of a bus: what stands below a port is always there.
    pub fn on_bus(bus: u8) -> Id {
        Id(u16::from(bus) << 8)
    }

    /// The host of a domain is a device of bus 00.
    pub fn host_of(domain: u8) -> Id {
        Id(u16::from(domain) << 3)
    }

    pub fn bus(self) -> u8 {
        (self.0 >> 8) as u8
    }

    pub fn device(self) -> u8 {
        (self.0 >> 3 & 31) as u8
    }

    pub fn function(self) -> u8 {
        (self.0 & 7) as u8
    }
}

impl fmt::Display for Id {
    fn fmt(&self, f: &mut fmt::Formatter) -> fmt::Result {
        write!(f, "{:02x}:{:02x}.{}", self.bus(), self.device(), self.function())
    }
}
