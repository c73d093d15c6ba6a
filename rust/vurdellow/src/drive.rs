//! A live controller: operations over real ports.
//!
//! A [`Session`](crate::Session), or a [`Handling`](crate::Handling), says what is to be done at
//! the ports. [`drive`] does it, one read or write after the other, until the operation has ended.
//! It keeps nothing of what was read, and needs no room for it; [`Recorded`] keeps it. That a
//! session makes the reads and writes of its operation is proved. That these loops do what it says
//! is tested.

use crate::step::{Request, Steps};
use crate::Port;
#[cfg(feature = "std")]
use std::time::{Duration, Instant};

/// The ports of a controller. A read of [`Port::Status`] gives the status; a write to it is a
/// command to the controller.
pub trait Ports {
    /// Reads a byte of a port: the data port (60) or the status port (64).
    fn read(&mut self, port: Port) -> u8;
    /// Writes a byte to a port.
    fn write(&mut self, port: Port, value: u8);
}

impl<P: Ports + ?Sized> Ports for &mut P {
    fn read(&mut self, port: Port) -> u8 {
        (**self).read(port)
    }

    fn write(&mut self, port: Port, value: u8) {
        (**self).write(port, value)
    }
}

/// Runs an operation over ports, to its end.
///
/// ```
/// use vurdellow::drive::{drive, Ports};
/// use vurdellow::{keyboard::Lamps, Port, Session};
///
/// /// A keyboard that acknowledges what it is sent.
/// struct Willing {
///     acknowledges: bool,
///     sent: Vec<u8>,
/// }
/// impl Ports for Willing {
///     fn read(&mut self, port: Port) -> u8 {
///         match port {
///             Port::Status => self.acknowledges.into(),
///             Port::Data => {
///                 self.acknowledges = false;
///                 0xFA
///             }
///         }
///     }
///     fn write(&mut self, _port: Port, value: u8) {
///         self.acknowledges = true;
///         self.sent.push(value);
///     }
/// }
///
/// let mut ports = Willing { acknowledges: false, sent: Vec::new() };
/// let done = drive(&mut ports, Session::keyboard_set_lamps(Lamps::CAPS))?;
/// assert_eq!((done.used, done.pairs), (6, 2));
/// assert_eq!(ports.sent, [0xED, 0x04]);
/// # Ok::<(), vurdellow::Refused<vurdellow::keyboard::Commanded>>(())
/// ```
pub fn drive<S: Steps>(ports: &mut (impl Ports + ?Sized), mut steps: S) -> S::Outcome {
    loop {
        match steps.wanted() {
            Request::Read(port) => steps.next(ports.read(port)),
            Request::Write(port, value) => {
                ports.write(port, value);
                steps.next(0)
            }
            Request::Done(outcome) => return outcome,
        }
    }
}

/// The same, with at most so many reads. If the operation needs more, this gives `None`, and the
/// operation goes on when it is driven again.
///
/// ```
/// # use vurdellow::drive::{drive_within, Ports};
/// # use vurdellow::{keyboard::KeyboardCommand, Port, Session};
/// # struct Silent;
/// # impl Ports for Silent {
/// #     fn read(&mut self, _port: Port) -> u8 {
/// #         0
/// #     }
/// #     fn write(&mut self, _port: Port, _value: u8) {}
/// # }
/// // A silent keyboard is given up after 65,536 reads.
/// let mut session = Session::keyboard_command(KeyboardCommand::EnableScanning);
/// assert!(drive_within(&mut Silent, 65_535, &mut session).is_none());
/// let ended = drive_within(&mut Silent, 1, &mut session).expect("that was the last");
/// assert_eq!(ended.unwrap_err().number(), 5);
/// ```
pub fn drive_within<S: Steps>(
    ports: &mut (impl Ports + ?Sized),
    mut reads: usize,
    steps: &mut S,
) -> Option<S::Outcome> {
    loop {
        match steps.wanted() {
            Request::Read(_) if reads == 0 => return None,
            Request::Read(port) => {
                reads -= 1;
                steps.next(ports.read(port))
            }
            Request::Write(port, value) => {
                ports.write(port, value);
                steps.next(0)
            }
            Request::Done(outcome) => return Some(outcome),
        }
    }
}

/// Ports whose reads and writes are kept: the script and the log on which the operation comes to
/// the same.
///
/// ```
/// # use vurdellow::drive::{drive, Ports, Recorded};
/// # use vurdellow::{keyboard, keyboard::Lamps, Port, Session};
/// # struct Willing(bool);
/// # impl Ports for Willing {
/// #     fn read(&mut self, port: Port) -> u8 {
/// #         match port {
/// #             Port::Status => self.0.into(),
/// #             Port::Data => std::mem::take(&mut self.0) as u8 * 0xFA,
/// #         }
/// #     }
/// #     fn write(&mut self, _port: Port, _value: u8) {
/// #         self.0 = true;
/// #     }
/// # }
/// let mut ports = Recorded::new(Willing(false));
/// let done = drive(&mut ports, Session::keyboard_set_lamps(Lamps::CAPS));
/// assert_eq!(ports.script, [0x00, 0x01, 0xFA, 0x00, 0x01, 0xFA]);
/// assert_eq!(ports.log, [0x60, 0xED, 0x60, 0x04]);
/// let mut log = [0; 4];
/// assert_eq!(keyboard::set_lamps(Lamps::CAPS, &ports.script, &mut log), done);
/// ```
#[cfg(feature = "std")]
#[derive(Clone, Debug, Default)]
pub struct Recorded<P> {
    /// The ports that are read and written.
    pub ports: P,
    /// The bytes that were read.
    pub script: Vec<u8>,
    /// The pairs that were written, each the port and the value.
    pub log: Vec<u8>,
}

#[cfg(feature = "std")]
impl<P: Ports> Recorded<P> {
    /// Nothing was read or written yet.
    pub fn new(ports: P) -> Recorded<P> {
        Recorded { ports, script: Vec::new(), log: Vec::new() }
    }
}

#[cfg(feature = "std")]
impl<P: Ports> Ports for Recorded<P> {
    fn read(&mut self, port: Port) -> u8 {
        let byte = self.ports.read(port);
        self.script.push(byte);
        byte
    }

    fn write(&mut self, port: Port, value: u8) {
        self.ports.write(port, value);
        self.log.extend([port.number(), value]);
    }
}

/// Ports that wait between polls, since operations poll a number of times and know no clock.
///
/// - A read of the status that directly follows another waits first. It waits a sixteenth of the
///   time for which the device has been silent, a microsecond at least. So 255 reads, the most
///   before a byte is sent, last half a minute or more. A reply is noticed a sixteenth too late at
///   most.
/// - A read of data waits until bit 0 of the status says that a byte is there. Initialisation,
///   packets and resets read without asking.
///
/// A silence is waited for within the limit. **Then what is read is given as it is**, a status
/// without the bit that is hoped for or the data port's old byte. Nothing more is waited for. The
/// operation still polls as often as it does, and is refused in the end. A silence ends when a read
/// of data finds a byte, and when something is written.
///
/// A read of data reads the status more often than the operation does, which changes nothing in the
/// controller.
#[cfg(feature = "std")]
#[derive(Clone, Debug)]
pub struct Patient<P> {
    /// The ports that are read and written.
    pub ports: P,
    limit: Duration,
    /// When the device was first waited for in this silence.
    since: Option<Instant>,
    /// Whether the last that was done is a read of the status.
    polled: bool,
}

/// The bit of the status that says that a byte can be read.
#[cfg(feature = "std")]
const BYTE_TO_READ: u8 = 1 << 0;

#[cfg(feature = "std")]
impl<P: Ports> Patient<P> {
    /// Waits for a silence no longer than `limit`. A keyboard takes up to 20 milliseconds for a
    /// reply, and after a reset up to three quarters of a second for its self test.
    pub fn new(ports: P, limit: Duration) -> Patient<P> {
        Patient { ports, limit, since: None, polled: false }
    }

    /// Waits a sixteenth of the silence so far, a microsecond at least, and never past the limit.
    /// Tells whether time was left.
    fn pause(&mut self) -> bool {
        let silence = self.since.get_or_insert_with(Instant::now).elapsed();
        let left = self.limit.saturating_sub(silence);
        std::thread::sleep((silence / 16).max(Duration::from_micros(1)).min(left));
        !left.is_zero()
    }
}

#[cfg(feature = "std")]
impl<P: Ports> Ports for Patient<P> {
    fn read(&mut self, port: Port) -> u8 {
        if port == Port::Status {
            if self.polled {
                self.pause();
            }
            self.polled = true;
            return self.ports.read(Port::Status);
        }
        self.polled = false;
        loop {
            if self.ports.read(Port::Status) & BYTE_TO_READ != 0 {
                self.since = None;
                break;
            }
            if !self.pause() {
                break;
            }
        }
        self.ports.read(Port::Data)
    }

    fn write(&mut self, port: Port, value: u8) {
        (self.since, self.polled) = (None, false);
        self.ports.write(port, value)
    }
}
