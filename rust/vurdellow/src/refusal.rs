//! Why a call is refused, and what its answer has next to that.

use core::error::Error;
use core::fmt;

/// A port of the controller, as it is read: a lack names the one that the whole run would read next.
#[derive(Clone, Copy, Debug, PartialEq, Eq, Hash)]
pub enum Port {
    /// 60, from which data is read.
    Data,
    /// 64, from which the status is read.
    Status,
}

impl Port {
    /// The port's number, 0x60 or 0x64.
    #[must_use]
    pub const fn number(self) -> u8 {
        match self {
            Port::Data => 0x60,
            Port::Status => 0x64,
        }
    }

    /// The port that has this number.
    #[must_use]
    pub const fn from_number(number: u8) -> Option<Port> {
        match number {
            0x60 => Some(Port::Data),
            0x64 => Some(Port::Status),
            _ => None,
        }
    }
}

/// Why a call was refused. Each case has the number that the repository's docs/REFUSALS.md explains.
#[derive(Clone, Copy, Debug, PartialEq, Eq, Hash)]
#[non_exhaustive]
pub enum Refusal {
    /// 1: the controller is initialised already.
    AlreadyInitialized,
    /// 2: the script has no byte for the next read, which is of this port.
    ScriptEnds(Port),
    /// 3: the log has not two free bytes for the next write.
    LogFull,
    /// 4: the controller was not ready for a byte at 255 reads of the status.
    InputBufferFull,
    /// 5: no response came within 65,535 polls.
    NoResponse,
    /// 6: the device answered FC or FD: its self test failed.
    SelfTestFailed,
    /// 7: the device acknowledged none of four attempts.
    NotAcknowledged,
    /// 8: the controller's test brought no 55.
    ControllerTestFailed,
    /// 9: no port passed its test.
    PortTestFailed,
    /// 10: no AA came after a reset.
    ResetFailed,
    /// 11: no scancode set or mouse identity came within 65,535 polls.
    NoSetOrIdentity,
    /// 12: the keyboard is of no known type.
    UnknownKeyboard,
    /// 13: the mouse had identity 4 before it was asked for it.
    FirstIdentityFour,
    /// 14: the lamps were not set.
    LedsNotSet,
    /// 15: the sampling rate or the resolution was not set.
    RateOrResolutionNotSet,
    /// 16: the mouse did not stop sending packets.
    PacketsNotStopped,
    /// 17: the mouse did not start sending packets.
    PacketsNotStarted,
    /// 18: the keyboard was not detected.
    KeyboardNotDetected,
    /// 19: the scancode has no key.
    UnknownScancode,
    /// 20: 128 events wait.
    QueueFull,
    /// 21: the record is malformed, or the side is not at the table.
    MalformedRecord,
    /// 22: a code has no entry in the table.
    NoEntry,
    /// 23: the output is full, or too short.
    OutputFull,
    /// 24: the stream ends after F0.
    EndsAfterF0,
    /// 25: a character has no key.
    NoKey,
    /// 26: the output is too short for the text's scancodes.
    OutputShort,
    /// 27: a number is cut short, too large or not shortest.
    MalformedNumber,
    /// 28: a version, a count or a field is outside its values.
    OutsideValues,
    /// 29: bytes follow the last field.
    BytesFollow,
    /// 30: the next packet or position does not fit its output.
    NoRoom,
    /// 31: 96 events of this side wait.
    SideFull,
    /// 32: a count or a sum would be outside its range.
    OutOfRange,
    /// 33: the key is outside the tournament profile.
    OutsideProfile,
    /// 255: an argument is invalid. The types here leave no such argument, so no function of this crate gives it.
    InvalidArgument,
}

impl Refusal {
    /// The number of this refusal: 1 to 33, or 255.
    #[must_use]
    pub const fn number(self) -> u8 {
        match self {
            Refusal::AlreadyInitialized => 1,
            Refusal::ScriptEnds(_) => 2,
            Refusal::LogFull => 3,
            Refusal::InputBufferFull => 4,
            Refusal::NoResponse => 5,
            Refusal::SelfTestFailed => 6,
            Refusal::NotAcknowledged => 7,
            Refusal::ControllerTestFailed => 8,
            Refusal::PortTestFailed => 9,
            Refusal::ResetFailed => 10,
            Refusal::NoSetOrIdentity => 11,
            Refusal::UnknownKeyboard => 12,
            Refusal::FirstIdentityFour => 13,
            Refusal::LedsNotSet => 14,
            Refusal::RateOrResolutionNotSet => 15,
            Refusal::PacketsNotStopped => 16,
            Refusal::PacketsNotStarted => 17,
            Refusal::KeyboardNotDetected => 18,
            Refusal::UnknownScancode => 19,
            Refusal::QueueFull => 20,
            Refusal::MalformedRecord => 21,
            Refusal::NoEntry => 22,
            Refusal::OutputFull => 23,
            Refusal::EndsAfterF0 => 24,
            Refusal::NoKey => 25,
            Refusal::OutputShort => 26,
            Refusal::MalformedNumber => 27,
            Refusal::OutsideValues => 28,
            Refusal::BytesFollow => 29,
            Refusal::NoRoom => 30,
            Refusal::SideFull => 31,
            Refusal::OutOfRange => 32,
            Refusal::OutsideProfile => 33,
            Refusal::InvalidArgument => 255,
        }
    }

    /// The refusal of an answer's numbers, and none for 0. No `port` but the two comes with a 2.
    pub(crate) fn answered(refusal: u32, port: u32) -> Option<Refusal> {
        Some(match refusal {
            0 => return None,
            1 => Refusal::AlreadyInitialized,
            2 => Refusal::ScriptEnds(if port == 0x60 { Port::Data } else { Port::Status }),
            3 => Refusal::LogFull,
            4 => Refusal::InputBufferFull,
            5 => Refusal::NoResponse,
            6 => Refusal::SelfTestFailed,
            7 => Refusal::NotAcknowledged,
            8 => Refusal::ControllerTestFailed,
            9 => Refusal::PortTestFailed,
            10 => Refusal::ResetFailed,
            11 => Refusal::NoSetOrIdentity,
            12 => Refusal::UnknownKeyboard,
            13 => Refusal::FirstIdentityFour,
            14 => Refusal::LedsNotSet,
            15 => Refusal::RateOrResolutionNotSet,
            16 => Refusal::PacketsNotStopped,
            17 => Refusal::PacketsNotStarted,
            18 => Refusal::KeyboardNotDetected,
            19 => Refusal::UnknownScancode,
            20 => Refusal::QueueFull,
            21 => Refusal::MalformedRecord,
            22 => Refusal::NoEntry,
            23 => Refusal::OutputFull,
            24 => Refusal::EndsAfterF0,
            25 => Refusal::NoKey,
            26 => Refusal::OutputShort,
            27 => Refusal::MalformedNumber,
            28 => Refusal::OutsideValues,
            29 => Refusal::BytesFollow,
            30 => Refusal::NoRoom,
            31 => Refusal::SideFull,
            32 => Refusal::OutOfRange,
            33 => Refusal::OutsideProfile,
            255 => Refusal::InvalidArgument,
            _ => unreachable!("the library's answer has the number {refusal}, which no refusal has"),
        })
    }

    /// Whether this is a lack, of a script byte or of room in the log: the call ended at once, and records are as they were passed.
    #[must_use]
    pub const fn is_lack(self) -> bool {
        matches!(self, Refusal::ScriptEnds(_) | Refusal::LogFull)
    }
}

impl fmt::Display for Refusal {
    fn fmt(&self, f: &mut fmt::Formatter<'_>) -> fmt::Result {
        let words = match self {
            Refusal::ScriptEnds(port) => {
                return write!(f, "refused 2: the script has no byte for the next read, of port {:X}", port.number())
            }
            Refusal::AlreadyInitialized => "the controller is initialised already",
            Refusal::LogFull => "the log has not two free bytes for the next write",
            Refusal::InputBufferFull => "the controller was not ready for a byte at 255 reads of the status",
            Refusal::NoResponse => "no response came within 65,535 polls",
            Refusal::SelfTestFailed => "the device answered FC or FD: its self test failed",
            Refusal::NotAcknowledged => "the device acknowledged none of four attempts",
            Refusal::ControllerTestFailed => "the controller's test brought no 55",
            Refusal::PortTestFailed => "no port passed its test",
            Refusal::ResetFailed => "no AA came after a reset",
            Refusal::NoSetOrIdentity => "no scancode set or mouse identity came within 65,535 polls",
            Refusal::UnknownKeyboard => "the keyboard is of no known type",
            Refusal::FirstIdentityFour => "the mouse had identity 4 before it was asked for it",
            Refusal::LedsNotSet => "the lamps were not set",
            Refusal::RateOrResolutionNotSet => "the sampling rate or the resolution was not set",
            Refusal::PacketsNotStopped => "the mouse did not stop sending packets",
            Refusal::PacketsNotStarted => "the mouse did not start sending packets",
            Refusal::KeyboardNotDetected => "the keyboard was not detected",
            Refusal::UnknownScancode => "the scancode has no key",
            Refusal::QueueFull => "128 events wait",
            Refusal::MalformedRecord => "the record is malformed, or the side is not at the table",
            Refusal::NoEntry => "a code has no entry in the table",
            Refusal::OutputFull => "the output is full, or too short",
            Refusal::EndsAfterF0 => "the stream ends after F0",
            Refusal::NoKey => "a character has no key",
            Refusal::OutputShort => "the output is too short for the text's scancodes",
            Refusal::MalformedNumber => "a number is cut short, too large or not shortest",
            Refusal::OutsideValues => "a version, a count or a field is outside its values",
            Refusal::BytesFollow => "bytes follow the last field",
            Refusal::NoRoom => "the next packet or position does not fit its output",
            Refusal::SideFull => "96 events of this side wait",
            Refusal::OutOfRange => "a count or a sum would be outside its range",
            Refusal::OutsideProfile => "the key is outside the tournament profile",
            Refusal::InvalidArgument => "an argument is invalid",
        };
        write!(f, "refused {}: {words}", self.number())
    }
}

impl Error for Refusal {}

/// How many script bytes were used, and how many pairs (port, value) were written to the log.
#[derive(Clone, Copy, Debug, Default, PartialEq, Eq)]
pub struct Counts {
    /// How many script bytes were used.
    pub used: usize,
    /// How many pairs, of port and value, were written.
    pub pairs: usize,
}

/// What an operation on the ports gives, with its counts.
#[derive(Clone, Copy, Debug, PartialEq, Eq)]
pub struct Done<T> {
    /// What the operation gives.
    pub value: T,
    /// How many script bytes were used.
    pub used: usize,
    /// How many pairs, of port and value, were written.
    pub pairs: usize,
}

/// A refusal, with what was done until then: the counts, and whatever else the call hands back after a refusal too.
#[derive(Clone, Copy, Debug, PartialEq, Eq)]
pub struct Refused<T = Counts> {
    /// Why the call was refused.
    pub refusal: Refusal,
    /// What was done until then.
    pub done: T,
}

impl<T> Refused<T> {
    /// The refusal's number.
    pub const fn number(&self) -> u8 {
        self.refusal.number()
    }
}

impl<T> fmt::Display for Refused<T> {
    fn fmt(&self, f: &mut fmt::Formatter<'_>) -> fmt::Result {
        self.refusal.fmt(f)
    }
}

impl<T: fmt::Debug> Error for Refused<T> {}

impl<T> From<Refused<T>> for Refusal {
    fn from(refused: Refused<T>) -> Refusal {
        refused.refusal
    }
}

/// What an operation on the ports comes to.
pub type Exchange<T> = Result<Done<T>, Refused>;

/// What tells how many script bytes were used and how many pairs were written.
pub trait Counted {
    /// How many script bytes were used.
    fn used(&self) -> usize;
    /// How many pairs, of port and value, were written.
    fn pairs(&self) -> usize;
}

/// What every call with a script and a log comes to, whatever else it gives: what a driver of real ports needs to go on.
pub trait Outcome {
    /// Why it was refused, if it was.
    fn refusal(&self) -> Option<Refusal>;
    /// Script bytes used, after a refusal too.
    fn used(&self) -> usize;
    /// Pairs written to the log, after a refusal too.
    fn pairs(&self) -> usize;

    /// The port that the whole run reads next, if the script ended before the call did.
    fn lacks(&self) -> Option<Port> {
        match self.refusal() {
            Some(Refusal::ScriptEnds(port)) => Some(port),
            _ => None,
        }
    }
}

impl Counted for Counts {
    fn used(&self) -> usize {
        self.used
    }

    fn pairs(&self) -> usize {
        self.pairs
    }
}

impl<T> Counted for Done<T> {
    fn used(&self) -> usize {
        self.used
    }

    fn pairs(&self) -> usize {
        self.pairs
    }
}

impl<A: Counted, B: Counted> Outcome for Result<A, Refused<B>> {
    fn refusal(&self) -> Option<Refusal> {
        self.as_ref().err().map(|refused| refused.refusal)
    }

    fn used(&self) -> usize {
        match self {
            Ok(done) => done.used(),
            Err(refused) => refused.done.used(),
        }
    }

    fn pairs(&self) -> usize {
        match self {
            Ok(done) => done.pairs(),
            Err(refused) => refused.done.pairs(),
        }
    }
}

/// Makes a result of an answer's refusal and of what was done.
pub(crate) fn settled<A, B>(refusal: Option<Refusal>, done: A, left: B) -> Result<A, Refused<B>> {
    match refusal {
        None => Ok(done),
        Some(refusal) => Err(Refused { refusal, done: left }),
    }
}

/// The result of an operation on the ports whose value is made of a number.
pub(crate) fn exchanged<T>(answer: crate::raw::vd_answer, value: impl FnOnce(u64) -> T) -> Exchange<T> {
    let crate::raw::vd_answer { refusal, port, used, pairs, value: number } = answer;
    match Refusal::answered(refusal, port) {
        None => Ok(Done { value: value(number), used, pairs }),
        Some(refusal) => Err(Refused { refusal, done: Counts { used, pairs } }),
    }
}
