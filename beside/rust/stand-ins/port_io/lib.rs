//! Stand-in for `port_io`: a read of any port takes the next byte of the script, a write puts the port and the value
//! into the log. Where a byte of the script (2) or two bytes of log (3) are lacking, the call is ended: see `Wire`.

use std::cell::UnsafeCell;
use std::marker::PhantomData;
use std::panic::resume_unwind;

pub struct Port<T> {
    port: u16,
    value: PhantomData<T>,
}

impl Port<u8> {
    pub const fn new(port: u16) -> Self {
        Port { port, value: PhantomData }
    }

    pub fn read(&self) -> u8 {
        wire().read(self.port)
    }

    pub unsafe fn write(&self, value: u8) {
        wire().write(self.port, value)
    }
}

/// Ours: what makes up a script while the Rust reads it.
pub trait Device {
    /// Puts the next bytes behind the script, one at least; none ends it.
    fn read(&mut self, port: u16, script: &mut Vec<u8>);
    fn write(&mut self, port: u16, value: u8);
}

/// What a call that lacks a byte is unwound with.
pub struct Lack;

/// Ours: both ports' script and log, and the first lack of the call.
///
/// At a lack the call is unwound, which nothing in the Rust catches. An interrupt handler can't be unwound: there
/// (`unwinds` is false) the lack is noted, and from then on nothing counts. No script byte is used and nothing is
/// logged; status reads give 01 and data reads FA, at which every exchange of the handler ends with its first attempt,
/// and a scancode FA does nothing. What the call does to the Rust's statics after the lack is for the driver to undo.
pub struct Wire {
    pub script: Vec<u8>,
    pub at: usize,
    pub log: Vec<u8>,
    /// 0, or the first lack: 2 or 3.
    pub lack: u8,
    /// The port of the read or the write that lacked.
    pub lacked: u16,
    pub unwinds: bool,
    pub device: Option<Box<dyn Device>>,
    end: usize,
    room: usize,
}

impl Wire {
    /// Before each call: the script goes on from `at`, the log is empty and has `room` bytes.
    pub fn begin(&mut self, at: usize, room: usize, unwinds: bool) {
        self.at = at;
        self.end = self.script.len();
        self.log.clear();
        self.room = room;
        self.lack = 0;
        self.unwinds = unwinds;
    }

    #[inline]
    fn read(&mut self, port: u16) -> u8 {
        if self.at < self.end {
            self.at += 1;
            return self.script[self.at - 1];
        }
        self.read_beyond(port)
    }

    #[cold]
    #[inline(never)]
    fn read_beyond(&mut self, port: u16) -> u8 {
        if self.lack == 0 {
            if let Some(device) = &mut self.device {
                device.read(port, &mut self.script);
                self.end = self.script.len();
                if self.at < self.end {
                    self.at += 1;
                    return self.script[self.at - 1];
                }
            }
        }
        self.lacks(2, port);
        if port == 0x64 {
            0x01
        } else {
            0xFA
        }
    }

    fn write(&mut self, port: u16, value: u8) {
        if self.room < self.log.len() + 2 {
            return self.lacks(3, port);
        }
        self.log.extend([port as u8, value]);
        if let Some(device) = &mut self.device {
            device.write(port, value);
        }
    }

    fn lacks(&mut self, number: u8, port: u16) {
        if self.lack == 0 {
            self.lack = number;
            self.lacked = port;
            self.end = self.at;
            self.room = 0;
        }
        if self.unwinds {
            resume_unwind(Box::new(Lack));
        }
    }
}

struct Only(UnsafeCell<Wire>);

// One thread runs the Rust.
unsafe impl Sync for Only {}

static WIRE: Only = Only(UnsafeCell::new(Wire {
    script: Vec::new(),
    at: 0,
    log: Vec::new(),
    lack: 0,
    lacked: 0,
    unwinds: true,
    device: None,
    end: 0,
    room: 0,
}));

/// Ours: the wire. No two of these references are used at a time.
pub fn wire() -> &'static mut Wire {
    unsafe { &mut *WIRE.0.get() }
}
