//! Keys pressed while the lamps change: none is lost (request 2.3).

use crate::qemu::Qemu;
use std::io;
use std::time::Duration;
use vurdellow::drive::{drive, Patient, Ports, Recorded};
use vurdellow::{Action, Controller, Event, Handler, Keyboards, Keycode, Port, Profile, Session, Side};

/// How a key comes while the exchange runs.
#[derive(Clone, Copy)]
pub enum Way {
    /// Pressed at the keyboard, which sends it when it has answered.
    Keyboard,
    /// In the controller already, before the keyboard's answer: put there by the controller's command D2.
    Controller,
}

/// Ports at which a key comes before the n-th read or write.
struct Meddled<'a> {
    qemu: &'a mut Qemu,
    left: usize,
    way: Way,
}

impl Meddled<'_> {
    fn count(&mut self) {
        if self.left == 0 {
            press(self.qemu, self.way);
        }
        self.left = self.left.wrapping_sub(1);
    }
}

fn press(qemu: &mut Qemu, way: Way) {
    match way {
        Way::Keyboard => qemu.inject("k.a.d"),
        Way::Controller => {
            qemu.write(Port::Status, 0xD2);
            qemu.write(Port::Data, 0x1E);
        }
    }
}

impl Ports for Meddled<'_> {
    fn read(&mut self, port: Port) -> u8 {
        self.count();
        self.qemu.read(port)
    }

    fn write(&mut self, port: Port, value: u8) {
        self.count();
        self.qemu.write(port, value)
    }
}

/// What came of a key at one place of the exchange.
pub struct Caught {
    pub script: Vec<u8>,
    /// The bytes that the exchange read and that wait afterwards.
    pub waiting: usize,
    pub events: Vec<Event>,
}

impl Caught {
    /// Caps Lock, and then A under it.
    pub fn is_whole(&self) -> bool {
        let pressed = |event: &Event, key| (event.keycode, event.action) == (key, Action::Pressed);
        match self.events.as_slice() {
            [lock, a] => pressed(lock, Keycode::CapsLock) && pressed(a, Keycode::A) && a.character() == Some('A'),
            _ => false,
        }
    }
}

/// Presses Caps Lock and has A come before each read and each write of the handler call, and behind the last.
pub fn show(way: Way) -> io::Result<Vec<Caught>> {
    let mut qemu = Qemu::start()?;
    let mut patient = Patient::new(&mut qemu, Duration::from_millis(50));
    let begun = drive(&mut patient, Session::controller_init(Controller::default()));
    assert!(begun.is_ok_and(|done| done.value.keyboard));
    let mut all = Vec::new();
    loop {
        let mut handler = Handler::new(Keyboards::One, Profile::Any);
        assert!(drive(&mut qemu, Session::keyboard_init()).is_ok());
        qemu.inject("k.caps_lock.d");
        let mut ports = Recorded::new(Meddled { qemu: &mut qemu, left: all.len(), way });
        assert!(drive(&mut ports, handler.handling(Side::First)).is_ok());
        let Recorded { ports, script, .. } = ports;
        let came = ports.left > all.len();
        if !came {
            press(&mut qemu, way);
        }
        let waiting = handler.waiting_bytes(Side::First);
        while handler.waiting_bytes(Side::First) > 0 || qemu.read(Port::Status) & 1 != 0 {
            assert!(drive(&mut qemu, handler.handling(Side::First)).is_ok());
        }
        all.push(Caught { script, waiting, events: handler.events().collect() });
        qemu.inject("k.caps_lock.u+k.a.u");
        while qemu.read(Port::Status) & 1 != 0 {
            qemu.read(Port::Data);
        }
        if !came {
            return Ok(all);
        }
    }
}
