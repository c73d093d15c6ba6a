//! Operations on the first keyboard, and what commands hand back.

use crate::raw;
use crate::refusal::{exchanged, settled, Counted, Exchange, Refusal, Refused};
use core::ops::BitOr;

/// The bytes that a command or a lamp exchange read and threw away, as keys pressed meanwhile: the earliest 16, and how many more.
#[derive(Clone, Copy, Debug, Default, PartialEq, Eq)]
pub struct Kept {
    bytes: [u8; 16],
    count: usize,
    /// How many came after the earliest 16.
    pub others: u32,
}

impl Kept {
    /// The earliest bytes, at most 16, in order.
    #[must_use]
    pub fn bytes(&self) -> &[u8] {
        &self.bytes[..self.count]
    }
}

/// What a command did, acknowledged or not.
#[derive(Clone, Copy, Debug, Default, PartialEq, Eq)]
pub struct Commanded {
    /// How many script bytes were used.
    pub used: usize,
    /// How many pairs, of port and value, were written.
    pub pairs: usize,
    /// The bytes that were read and thrown away.
    pub kept: Kept,
}

impl Counted for Commanded {
    fn used(&self) -> usize {
        self.used
    }

    fn pairs(&self) -> usize {
        self.pairs
    }
}

/// The result of a command.
pub type Command = Result<Commanded, Refused<Commanded>>;

pub(crate) fn kept(answer: &raw::vd_kept) -> Kept {
    let raw::vd_kept { count, others, bytes, .. } = *answer;
    Kept { bytes, count: (count as usize).min(bytes.len()), others }
}

pub(crate) fn commanded(answer: raw::vd_kept) -> Command {
    let done = Commanded { used: answer.used, pairs: answer.pairs, kept: kept(&answer) };
    settled(Refusal::answered(answer.refusal, answer.port), done, done)
}

/// The lamps of a keyboard.
#[derive(Clone, Copy, Debug, Default, PartialEq, Eq, Hash)]
pub struct Lamps(u8);

impl Lamps {
    /// No lamp.
    pub const NONE: Lamps = Lamps(0);
    /// The Scroll Lock lamp.
    pub const SCROLL: Lamps = Lamps(1);
    /// The Num Lock lamp.
    pub const NUM: Lamps = Lamps(2);
    /// The Caps Lock lamp.
    pub const CAPS: Lamps = Lamps(4);

    /// The lamps as bits, 0 to 7.
    #[must_use]
    pub const fn bits(self) -> u8 {
        self.0
    }
}

impl BitOr for Lamps {
    type Output = Lamps;

    fn bitor(self, other: Lamps) -> Lamps {
        Lamps(self.0 | other.0)
    }
}

/// A scancode set.
#[derive(Clone, Copy, Debug, PartialEq, Eq, Hash)]
pub enum ScancodeSet {
    /// Scan code set 1.
    Set1 = 1,
    /// Scan code set 2, which keyboards speak when they are switched on.
    Set2 = 2,
    /// Scan code set 3.
    Set3 = 3,
}

/// What [`detect`] recognises.
#[derive(Clone, Copy, Debug, PartialEq, Eq, Hash)]
pub enum KeyboardType {
    /// An MF2 keyboard.
    Mf2Keyboard = 1,
    /// An MF2 keyboard behind a controller that translates to set 1.
    Mf2KeyboardTranslated = 2,
    /// An AT keyboard, which answers no identity.
    AncientAtKeyboard = 3,
}

impl KeyboardType {
    pub(crate) fn of(number: u64) -> KeyboardType {
        match number {
            1 => KeyboardType::Mf2Keyboard,
            2 => KeyboardType::Mf2KeyboardTranslated,
            _ => KeyboardType::AncientAtKeyboard,
        }
    }
}

/// The commands to a keyboard, each one byte.
#[derive(Clone, Copy, Debug, PartialEq, Eq, Hash)]
pub enum KeyboardCommand {
    /// Sets the lamps; a data byte follows.
    SetLedStatus = 0xED,
    /// Gets or sets the scan code set; a data byte follows.
    ScancodeSet = 0xF0,
    /// Asks for the keyboard's identity.
    IdentifyKeyboard = 0xF2,
    /// Sets repeat rate and delay; a data byte follows.
    SetRepeatRateAndDelay = 0xF3,
    /// Starts the sending of keys.
    EnableScanning = 0xF4,
    /// Stops the sending of keys.
    DisableScanning = 0xF5,
    /// Asks for the last byte again.
    ResendByte = 0xFE,
    /// Resets the keyboard, which then tests itself.
    ResetAndStartSelfTest = 0xFF,
}

/// Resets the keyboard and waits for its self test.
pub fn reset(script: &[u8], log: &mut [u8]) -> Exchange<()> {
    exchanged(raw::vd_keyboard_reset(script, log), |_| ())
}

/// Sends one command byte, up to four times until it is acknowledged.
///
/// ```
/// use vurdellow::keyboard::{command, KeyboardCommand};
/// // The status says that the controller takes a byte, then twice that one can be read: a key, and the acknowledgement.
/// let mut log = [0; 8];
/// let done = command(KeyboardCommand::EnableScanning, &[0x00, 0x01, 0x1E, 0x01, 0xFA], &mut log)?;
/// assert_eq!((done.used, done.kept.bytes()), (5, &[0x1E][..]));
/// assert_eq!(&log[..2 * done.pairs], [0x60, 0xF4]);
/// # Ok::<(), vurdellow::Refused<vurdellow::keyboard::Commanded>>(())
/// ```
pub fn command(command: KeyboardCommand, script: &[u8], log: &mut [u8]) -> Command {
    commanded(raw::vd_keyboard_command(command as u32, script, log))
}

/// Lights these lamps, and puts out the others.
pub fn set_lamps(lamps: Lamps, script: &[u8], log: &mut [u8]) -> Command {
    commanded(raw::vd_keyboard_set_lamps(u32::from(lamps.0), script, log))
}

/// Asks the keyboard for a scancode set, then which one it speaks: another one is no refusal.
pub fn set_scancode_set(set: ScancodeSet, script: &[u8], log: &mut [u8]) -> Exchange<()> {
    exchanged(raw::vd_keyboard_set_scancode_set(set as u32, script, log), |_| ())
}

/// Asks the keyboard which scancode set it speaks. A keyboard may also answer 0.
pub fn get_scancode_set(script: &[u8], log: &mut [u8]) -> Exchange<u8> {
    exchanged(raw::vd_keyboard_get_scancode_set(script, log), |set| set as u8)
}

/// Asks what keyboard this is.
pub fn detect(script: &[u8], log: &mut [u8]) -> Exchange<KeyboardType> {
    exchanged(raw::vd_keyboard_detect(script, log), KeyboardType::of)
}

/// Sets repeat rate and delay.
pub fn set_repeat(byte: u8, script: &[u8], log: &mut [u8]) -> Exchange<()> {
    exchanged(raw::vd_keyboard_set_repeat(u32::from(byte), script, log), |_| ())
}

/// Reads the status once: whether the keyboard has a byte to read.
pub fn waits(script: &[u8]) -> Exchange<bool> {
    exchanged(raw::vd_keyboard_waits(script), |waits| waits != 0)
}

/// Reads one byte without asking the status.
pub fn read_scancode(script: &[u8]) -> Exchange<u8> {
    exchanged(raw::vd_keyboard_read_scancode(script), |byte| byte as u8)
}
