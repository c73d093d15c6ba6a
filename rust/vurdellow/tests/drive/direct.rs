//! The operations as a driver would make them that talks to the ports itself: no script, no log, no library. Written from document 01
//! (docs/DOCUMENT-01.md) and document 02, to hold `drive` to: what it reads and writes, and in which order.

use vurdellow::drive::Ports;
use vurdellow::keyboard::KeyboardType;
use vurdellow::{Identity, Port};

/// The number of a refusal.
pub type Refused = u8;
/// Where a byte for a device goes: to the keyboard, or to the mouse or the second keyboard, after D4.
#[derive(Clone, Copy, PartialEq)]
pub enum Way {
    First,
    Second,
}

pub struct Direct<'a> {
    pub ports: &'a mut dyn Ports,
    /// The bytes that receiving threw away.
    pub thrown: Vec<u8>,
}

const POLLS: usize = 65_535;

pub const IDENTITIES: [Identity; 3] = [Identity::NoWheel, Identity::Wheel, Identity::FiveButtons];

impl Direct<'_> {
    fn status(&mut self) -> u8 {
        self.ports.read(Port::Status)
    }

    pub fn data(&mut self) -> u8 {
        self.ports.read(Port::Data)
    }

    fn controller(&mut self, command: u8) {
        self.ports.write(Port::Status, command)
    }

    /// A poll: the data where the status has all these bits.
    fn poll(&mut self, bits: u8) -> Option<u8> {
        (self.status() & bits == bits).then(|| self.data())
    }

    fn send(&mut self, byte: u8) -> Result<(), Refused> {
        for _ in 0..255 {
            if self.status() & 2 == 0 {
                self.ports.write(Port::Data, byte);
                return Ok(());
            }
        }
        Err(4)
    }

    fn receive(&mut self) -> Result<u8, Refused> {
        for _ in 0..POLLS {
            match self.poll(1) {
                Some(byte @ (0x00 | 0xAA | 0xEE | 0xFA | 0xFC..=0xFF)) => return Ok(byte),
                Some(other) => self.thrown.push(other),
                None => {}
            }
        }
        Err(5)
    }

    pub fn command(&mut self, way: Way, byte: u8) -> Result<(), Refused> {
        if way == Way::Second {
            self.controller(0xD4);
        }
        for _ in 0..4 {
            self.send(byte)?;
            match self.receive()? {
                0xFA | 0xAA => return Ok(()),
                0xFC | 0xFD => return Err(6),
                _ => {}
            }
        }
        Err(7)
    }

    pub fn pair(&mut self, way: Way, command: u8, byte: u8) -> Result<(), Refused> {
        self.command(way, command)?;
        self.command(way, byte)
    }

    pub fn lamps(&mut self, way: Way, lamps: u8) -> Result<(), Refused> {
        self.pair(way, 0xED, lamps).map_err(|_| 14)
    }

    pub fn reset(&mut self, way: Way) -> Result<(), Refused> {
        self.command(way, 0xFF)?;
        let reads = if way == Way::First { 262_140 } else { 196_605 };
        if !(0..reads).any(|_| self.data() == 0xAA) {
            return Err(10);
        }
        if way == Way::Second {
            self.data();
        }
        Ok(())
    }

    pub fn scancode_set(&mut self) -> Result<u8, Refused> {
        self.pair(Way::First, 0xF0, 0)?;
        (0..POLLS).find_map(|_| self.poll(1).filter(|set| *set < 4)).ok_or(11)
    }

    pub fn set_scancode_set(&mut self, set: u8) -> Result<(), Refused> {
        self.pair(Way::First, 0xF0, set)?;
        self.scancode_set().map(drop)
    }

    pub fn detect(&mut self) -> Result<KeyboardType, Refused> {
        self.pair(Way::First, 0xF5, 0xF2)?;
        let mut found = Err(12);
        for _ in 0..POLLS {
            match self.poll(1) {
                Some(0x00) => found = Ok(KeyboardType::AncientAtKeyboard),
                Some(0xAB) => {
                    let second = (0..POLLS).find_map(|_| match self.poll(1) {
                        Some(0x41 | 0xC1) => Some(KeyboardType::Mf2KeyboardTranslated),
                        Some(0x83) => Some(KeyboardType::Mf2Keyboard),
                        _ => None,
                    });
                    found = second.ok_or(12);
                }
                _ => continue,
            }
            break;
        }
        self.command(Way::First, 0xF4)?;
        found
    }

    pub fn keyboard_init(&mut self) -> Result<(), Refused> {
        self.detect().map_err(|_| 18u8)?;
        self.set_scancode_set(1)
    }

    pub fn sampling_rate(&mut self, rate: u8) -> Result<(), Refused> {
        self.pair(Way::Second, 0xF3, rate).map_err(|_| 15)
    }

    pub fn resolution(&mut self, resolution: u8) -> Result<(), Refused> {
        self.pair(Way::Second, 0xE8, resolution).map_err(|_| 15)
    }

    pub fn start_packets(&mut self) -> Result<(), Refused> {
        self.command(Way::Second, 0xF4).map_err(|_| 17)
    }

    pub fn stop_packets(&mut self) -> Result<(), Refused> {
        self.command(Way::Second, 0xF5).map_err(|_| 16)
    }

    pub fn identity(&mut self) -> Result<Identity, Refused> {
        self.command(Way::Second, 0xF2)?;
        let identity = |byte| IDENTITIES.into_iter().find(|id| id.number() == u32::from(byte));
        (0..POLLS).find_map(|_| self.poll(0x21).and_then(identity)).ok_or(11)
    }

    /// What it is refused with, and the record's identity afterwards.
    pub fn set_identity(&mut self, old: Identity) -> (Result<(), Refused>, Identity) {
        let mut id = old;
        let done = self.find_identity(&mut id);
        let kept = if matches!(done, Err(13 | 15 | 16)) { old } else { id };
        (done, kept)
    }

    fn find_identity(&mut self, id: &mut Identity) -> Result<(), Refused> {
        self.stop_packets()?;
        for rate in [200, 100, 80] {
            self.sampling_rate(rate)?;
        }
        match self.identity() {
            Ok(Identity::FiveButtons) => return Err(13),
            Ok(Identity::Wheel) => {
                for rate in [200, 200, 80] {
                    self.sampling_rate(rate)?;
                }
                if let Ok(found) = self.identity() {
                    *id = found;
                }
            }
            _ => {}
        }
        self.start_packets()
    }

    /// The bytes of a packet.
    pub fn packet(&mut self, id: Identity) -> Vec<u8> {
        (0..if id == Identity::NoWheel { 3 } else { 4 }).map(|_| self.data()).collect()
    }

    fn port_test(&mut self, command: u8) -> bool {
        self.controller(command);
        (0..POLLS).any(|_| self.poll(1) == Some(0))
    }

    fn write_config(&mut self, config: u8) {
        self.controller(0x60);
        self.ports.write(Port::Data, config);
    }

    /// Whether a keyboard and a mouse are attached.
    pub fn init(&mut self) -> Result<(bool, bool), Refused> {
        self.controller(0xAD);
        self.controller(0xA7);
        self.data();
        self.controller(0x20);
        let read = self.data();
        let mut config = read & !0x43;
        self.write_config(config);
        self.controller(0xAA);
        if !(0..POLLS).any(|_| self.data() == 0x55) {
            return Err(8);
        }
        self.write_config(config);
        let first = self.port_test(0xAB);
        let second = read & 0x20 != 0 && self.port_test(0xA9);
        if !first && !second {
            return Err(9);
        }
        if first {
            self.controller(0xAE);
            config = config & !0x10 | 1;
        }
        if second {
            self.controller(0xA8);
            config = config & !0x20 | 2;
        }
        self.write_config(config);
        let keyboard = self.reset(Way::First).is_ok();
        let mouse = self.reset(Way::Second).is_ok();
        self.controller(0x20);
        self.data();
        Ok((keyboard, mouse))
    }

    pub fn apply(&mut self, [set, rate, resolution, lamps]: [u8; 4], repeat: Option<u8>) -> Result<(), Refused> {
        self.set_scancode_set(set)?;
        self.sampling_rate(rate)?;
        self.resolution(resolution)?;
        self.lamps(Way::First, lamps)?;
        repeat.map_or(Ok(()), |byte| self.pair(Way::First, 0xF3, byte))
    }
}

/// What the handler remembers of a keyboard, as far as it reads and writes by it.
#[derive(Clone, Default)]
pub struct Remembered {
    lamps: u8,
    waiting: Vec<u8>,
}

impl Remembered {
    /// A handler call: whether a lamp exchange failed, and how many bytes were dropped.
    pub fn handle(&mut self, way: Way, ports: &mut dyn Ports) -> (bool, u32) {
        let mut direct = Direct { ports, thrown: Vec::new() };
        let byte = if self.waiting.is_empty() { direct.data() } else { self.waiting.remove(0) };
        let lamp = match byte {
            0x46 => 1,
            0x45 => 2,
            0x3A => 4,
            _ => return (false, 0),
        };
        self.lamps ^= lamp;
        let failed = direct.lamps(way, self.lamps).is_err();
        self.waiting.append(&mut direct.thrown);
        let dropped = self.waiting.len().saturating_sub(16);
        self.waiting.truncate(16);
        (failed, dropped as u32)
    }
}
