//! A club's preferences: stored as bytes, and applied to the devices.

use crate::raw;
use crate::refusal::{exchanged, Exchange, Refusal};

/// The four fields of every record. A field may hold any number: only those within its values are written and applied.
#[derive(Clone, Copy, Debug, PartialEq, Eq, Hash)]
pub struct Fields {
    /// The scancode set, 1 to 3.
    pub set: u32,
    /// The mouse's sampling rate: 10, 20, 40, 60, 80, 100 or 200.
    pub rate: u32,
    /// The mouse's resolution, 0 to 3.
    pub resolution: u32,
    /// The keyboard's lamps, 0 to 7.
    pub lamps: u32,
}

/// Preferences of version 1, or of version 2, which has the repeat byte (0 to 127) behind the four fields.
///
/// ```
/// use vurdellow::{Fields, Preferences, Refusal};
/// let preferences = Preferences::Version1(Fields { set: 1, rate: 100, resolution: 3, lamps: 7 });
/// let mut out = [0; 16];
/// let written = preferences.write(&mut out)?;
/// assert_eq!(out[..written], [0x01, 0x04, 0x01, 0x64, 0x03, 0x07]);
/// assert_eq!(Preferences::read(&out[..written]), Ok(preferences));
/// assert_eq!(Preferences::read(&out[..written + 1]), Err(Refusal::BytesFollow));
/// # Ok::<(), Refusal>(())
/// ```
#[derive(Clone, Copy, Debug, PartialEq, Eq, Hash)]
pub enum Preferences {
    /// Version 1.
    Version1(Fields),
    /// Version 2, with the byte of repeat rate and delay, 0 to 127.
    Version2(Fields, u32),
}

impl Preferences {
    pub(crate) fn numbers(self) -> raw::vd_preferences {
        let (version, Fields { set, rate, resolution, lamps }, repeat) = match self {
            Preferences::Version1(fields) => (1, fields, 0),
            Preferences::Version2(fields, repeat) => (2, fields, repeat),
        };
        raw::vd_preferences { version, set, rate, resolution, lamps, repeat }
    }

    /// Writes the preferences as bytes, and gives how many. Refused with 28, then 23, with the output as it was.
    pub fn write(self, out: &mut [u8]) -> Result<usize, Refusal> {
        let raw::vd_preferences_written { refusal, written } = raw::vd_preferences_write(self.numbers(), out);
        Refusal::answered(refusal, 0).map_or(Ok(written), Err)
    }

    /// Reads preferences of either version. Refused with 27, 28 and 29.
    pub fn read(input: &[u8]) -> Result<Preferences, Refusal> {
        let (fields, read) = fields_of(raw::vd_preferences_read_2(input))?;
        Ok(match read.version {
            1 => Preferences::Version1(fields),
            _ => Preferences::Version2(fields, read.repeat),
        })
    }

    /// Reads the four fields of preferences of either version, as a table of version 1 does. Refused with 27, 28 and 29.
    pub fn read_fields(input: &[u8]) -> Result<Fields, Refusal> {
        Ok(fields_of(raw::vd_preferences_read_1(input))?.0)
    }

    /// Sets scancode set, rate, resolution, lamps and repeat byte, in this order, until a device refuses one.
    /// Fields outside their values are refused with 28 before anything is read or written.
    pub fn apply(self, script: &[u8], log: &mut [u8]) -> Exchange<()> {
        exchanged(raw::vd_preferences_apply(self.numbers(), script, log), |_| ())
    }
}

fn fields_of(answer: raw::vd_preferences_read) -> Result<(Fields, raw::vd_preferences), Refusal> {
    match Refusal::answered(answer.refusal, 0) {
        None => {
            let raw::vd_preferences { set, rate, resolution, lamps, .. } = answer.preferences;
            Ok((Fields { set, rate, resolution, lamps }, answer.preferences))
        }
        Some(refusal) => Err(refusal),
    }
}
