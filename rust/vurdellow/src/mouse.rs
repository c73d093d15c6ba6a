//! The mouse: its record, its operations and its packets.

use crate::keyboard::{commanded, Command};
use crate::raw;
use crate::refusal::{exchanged, settled, Counts, Done, Exchange, Refusal};

/// A mouse's identity, by which its packets have their form.
#[derive(Clone, Copy, Debug, Default, PartialEq, Eq, Hash)]
pub enum Identity {
    /// Packets of three bytes: three buttons and movement.
    #[default]
    NoWheel = 0,
    /// Packets of four: a wheel too.
    Wheel = 3,
    /// Packets of four: a wheel and buttons 4 and 5 too.
    FiveButtons = 4,
}

impl Identity {
    /// 0, 3 or 4.
    #[must_use]
    pub const fn number(self) -> u32 {
        self as u32
    }

    /// How many bytes a packet has.
    #[must_use]
    pub const fn packet_length(self) -> usize {
        match self {
            Identity::NoWheel => 3,
            Identity::Wheel | Identity::FiveButtons => 4,
        }
    }

    /// The identity of a number; as in a dispatcher's state any other number means 0.
    pub(crate) fn of(number: u64) -> Identity {
        match number {
            3 => Identity::Wheel,
            4 => Identity::FiveButtons,
            _ => Identity::NoWheel,
        }
    }
}

/// A packet of the mouse. The wheel is signed at every identity.
#[derive(Clone, Copy, Debug, PartialEq, Eq, Hash)]
pub struct Packet {
    buttons: u8,
    /// Movement sideways, -256 to 255.
    pub x: i16,
    /// Movement up or down, -256 to 255.
    pub y: i16,
    /// -128 to 127 with identity 3, -8 to 7 with 4, and 0 with 0.
    pub wheel: i8,
}

impl Packet {
    /// A packet's numbers fit: movements have nine bits, a wheel eight.
    pub(crate) fn of(buttons: u32, x: i32, y: i32, wheel: i32) -> Packet {
        Packet { buttons: buttons as u8, x: x as i16, y: y as i16, wheel: wheel as i8 }
    }

    /// The buttons as bits: 0 left, 1 right, 2 middle, 3 fourth, 4 fifth.
    #[must_use]
    pub const fn buttons(&self) -> u8 {
        self.buttons
    }

    /// Whether the left button is held.
    #[must_use]
    pub const fn left(&self) -> bool {
        self.buttons & 1 != 0
    }

    /// Whether the right button is held.
    #[must_use]
    pub const fn right(&self) -> bool {
        self.buttons & 2 != 0
    }

    /// Whether the middle button is held.
    #[must_use]
    pub const fn middle(&self) -> bool {
        self.buttons & 4 != 0
    }

    /// Whether the fourth button is held.
    #[must_use]
    pub const fn fourth(&self) -> bool {
        self.buttons & 8 != 0
    }

    /// Whether the fifth button is held.
    #[must_use]
    pub const fn fifth(&self) -> bool {
        self.buttons & 16 != 0
    }
}

pub(crate) fn packet(answer: raw::vd_packet) -> Exchange<Packet> {
    let raw::vd_packet { refusal, port, used, buttons, x, y, wheel } = answer;
    let value = Packet::of(buttons, x, y, wheel);
    settled(Refusal::answered(refusal, port), Done { value, used, pairs: 0 }, Counts { used, pairs: 0 })
}

/// The commands to a mouse, each one byte.
#[derive(Clone, Copy, Debug, PartialEq, Eq, Hash)]
pub enum MouseCommand {
    /// Sets the scaling to 1:1.
    SetScaling = 0xE6,
    /// Sets the resolution; a data byte follows.
    SetResolution = 0xE8,
    /// Asks for three bytes of status.
    StatusRequest = 0xE9,
    /// Has the mouse send packets by itself.
    SetStreamMode = 0xEA,
    /// Asks for one packet.
    ReadData = 0xEB,
    /// Ends the wrap mode.
    ResetWrapMode = 0xEC,
    /// Has the mouse send back each byte.
    SetWrapMode = 0xEE,
    /// Has the mouse send packets only when it is asked.
    SetRemoteMode = 0xF0,
    /// Asks for the mouse's identity.
    GetDeviceId = 0xF2,
    /// Sets the packets a second; a data byte follows.
    SampleRate = 0xF3,
    /// Starts the sending of packets.
    EnableDataReporting = 0xF4,
    /// Stops the sending of packets.
    DisableDataReporting = 0xF5,
    /// Restores the defaults.
    SetDefaults = 0xF6,
    /// Asks for the last byte again.
    ResendByte = 0xFE,
    /// Resets the mouse, which then tests itself.
    Reset = 0xFF,
}

/// How often a mouse sends a packet, in a second.
#[derive(Clone, Copy, Debug, PartialEq, Eq, Hash)]
pub enum SamplingRate {
    /// 10 packets a second.
    Hz10 = 10,
    /// 20 packets a second.
    Hz20 = 20,
    /// 40 packets a second.
    Hz40 = 40,
    /// 60 packets a second.
    Hz60 = 60,
    /// 80 packets a second.
    Hz80 = 80,
    /// 100 packets a second.
    Hz100 = 100,
    /// 200 packets a second.
    Hz200 = 200,
}

/// How many counts a mouse gives to a millimetre.
#[derive(Clone, Copy, Debug, PartialEq, Eq, Hash)]
pub enum Resolution {
    /// 1 count a millimetre.
    Counts1 = 0,
    /// 2 counts a millimetre.
    Counts2 = 1,
    /// 4 counts a millimetre.
    Counts4 = 2,
    /// 8 counts a millimetre.
    Counts8 = 3,
}

/// A mouse, with the identity that is known of it; the default is 0, as after a reset.
#[derive(Clone, Copy, Debug, Default, PartialEq, Eq, Hash)]
pub struct Mouse {
    /// The identity, by which packets have their length.
    pub identity: Identity,
}

impl Mouse {
    /// Tries to switch wheel and side buttons on. The record has afterwards the identity that is known then, after a refusal too.
    pub fn set_identity(&mut self, script: &[u8], log: &mut [u8]) -> Exchange<Identity> {
        let answer = raw::vd_mouse_set_identity(self.identity.number(), script, log);
        self.identity = Identity::of(answer.value);
        exchanged(answer, Identity::of)
    }

    /// Reads a packet without asking the status.
    ///
    /// ```
    /// use vurdellow::{Identity, Mouse};
    /// let mouse = Mouse { identity: Identity::FiveButtons };
    /// let packet = mouse.read_packet(&[0x19, 0xFF, 0x00, 0x0F])?.value;
    /// assert!(packet.left() && !packet.fifth());
    /// assert_eq!((packet.x, packet.y, packet.wheel), (-1, 0, -1));
    /// # Ok::<(), vurdellow::Refused>(())
    /// ```
    pub fn read_packet(&self, script: &[u8]) -> Exchange<Packet> {
        packet(raw::vd_mouse_read_packet(self.identity.number(), script))
    }

    /// Resets the mouse, waits for its self test and reads one byte more.
    pub fn reset(script: &[u8], log: &mut [u8]) -> Exchange<()> {
        exchanged(raw::vd_mouse_reset(script, log), |_| ())
    }

    /// Has the mouse send packets.
    pub fn start_packets(script: &[u8], log: &mut [u8]) -> Exchange<()> {
        exchanged(raw::vd_mouse_start_packets(script, log), |_| ())
    }

    /// Has the mouse stop sending packets.
    pub fn stop_packets(script: &[u8], log: &mut [u8]) -> Exchange<()> {
        exchanged(raw::vd_mouse_stop_packets(script, log), |_| ())
    }

    /// Asks the mouse for its identity.
    pub fn get_identity(script: &[u8], log: &mut [u8]) -> Exchange<Identity> {
        exchanged(raw::vd_mouse_get_identity(script, log), Identity::of)
    }

    /// Sends one command byte, up to four times until it is acknowledged.
    pub fn command(command: MouseCommand, script: &[u8], log: &mut [u8]) -> Command {
        commanded(raw::vd_mouse_command(command as u32, script, log))
    }

    /// Sets the sampling rate.
    pub fn set_sampling_rate(rate: SamplingRate, script: &[u8], log: &mut [u8]) -> Exchange<()> {
        exchanged(raw::vd_mouse_set_sampling_rate(rate as u32, script, log), |_| ())
    }

    /// Sets the resolution.
    pub fn set_resolution(resolution: Resolution, script: &[u8], log: &mut [u8]) -> Exchange<()> {
        exchanged(raw::vd_mouse_set_resolution(resolution as u32, script, log), |_| ())
    }

    /// Reads the status once: whether the mouse has a byte to read.
    pub fn waits(script: &[u8]) -> Exchange<bool> {
        exchanged(raw::vd_mouse_waits(script), |waits| waits != 0)
    }
}
