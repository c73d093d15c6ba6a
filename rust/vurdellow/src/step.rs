//! Operations on the ports, a byte at a time.
//!
//! A session says what is to be done next at the ports, a read or a write. Whoever has the ports
//! does it, and goes on with the byte that the read brought. A session waits for nothing, so a
//! kernel can go on with it from an interrupt, and [`drive`](crate::drive::drive) is a loop.
//!
//! A session comes to what the call on the whole script comes to, with the same reads and writes.
//! The repository's docs/CUT-SCRIPTS.md tells of which operations this is proved.
//!
//! ```
//! use vurdellow::keyboard::KeyboardCommand;
//! use vurdellow::{Port, Request, Session, Steps};
//!
//! let mut session = Session::keyboard_command(KeyboardCommand::EnableScanning);
//! // The controller takes a byte, so F4 is sent. Then a byte is there: the acknowledgement.
//! assert_eq!(session.wanted(), Request::Read(Port::Status));
//! session.next(0x00);
//! assert_eq!(session.wanted(), Request::Write(Port::Data, 0xF4));
//! session.next(0);
//! assert_eq!(session.wanted(), Request::Read(Port::Status));
//! session.next(0x01);
//! assert_eq!(session.wanted(), Request::Read(Port::Data));
//! session.next(0xFA);
//! let Request::Done(Ok(done)) = session.wanted() else { panic!("it was acknowledged") };
//! assert_eq!((done.used, done.pairs), (3, 1));
//! ```

use crate::handler::{Handled, Handler, HANDLER_LOG};
use crate::keyboard::{
    kept, Command, Commanded, KeyboardCommand, KeyboardType, Lamps, ScancodeSet,
};
use crate::refusal::{settled, Counts, Done, Exchange, Outcome, Refusal, Refused};
use crate::{
    raw, Controller, Identity, MouseCommand, Packet, Port, Preferences, Resolution, SamplingRate,
    Side,
};
use core::borrow::BorrowMut;

/// How many numbers a session has.
pub const STEP_WORDS: usize = 256;

/// Where in them the numbers of its outcome are.
const OUTCOME: usize = 8;

/// The kinds of a request that is not the end.
const READ: u32 = 1;
const WRITE: u32 = 2;

/// The operations, by number.
#[derive(Clone, Copy)]
enum Operation {
    ControllerInit = 1,
    KeyboardInit = 2,
    KeyboardReset = 3,
    KeyboardCommand = 4,
    KeyboardSetLamps = 5,
    KeyboardSetScancodeSet = 6,
    KeyboardGetScancodeSet = 7,
    KeyboardDetect = 8,
    KeyboardSetRepeat = 9,
    KeyboardWaits = 10,
    KeyboardReadScancode = 11,
    MouseReset = 12,
    MouseStartPackets = 13,
    MouseStopPackets = 14,
    MouseGetIdentity = 15,
    MouseSetIdentity = 16,
    MouseCommand = 17,
    MouseSetSamplingRate = 18,
    MouseSetResolution = 19,
    MouseWaits = 20,
    MouseReadPacket = 21,
    PreferencesApply = 22,
}

/// What is to be done at the ports, or what the operation came to.
#[derive(Clone, Copy, Debug, PartialEq, Eq)]
pub enum Request<R> {
    /// Read a byte of this port, and go on with it.
    Read(Port),
    /// Write this byte to this port, and go on with any byte.
    Write(Port, u8),
    /// The operation has ended.
    Done(R),
}

/// An operation that was begun, and goes on a byte at a time.
pub trait Steps {
    /// What it comes to.
    type Outcome;

    /// What is to be done now: the same until the session goes on.
    fn wanted(&self) -> Request<Self::Outcome>;

    /// Goes on with the byte that the read brought. After a write the byte is not looked at, and
    /// after the end nothing is done.
    fn next(&mut self, byte: u8);
}

impl<S: Steps + ?Sized> Steps for &mut S {
    type Outcome = S::Outcome;

    fn wanted(&self) -> Request<S::Outcome> {
        (**self).wanted()
    }

    fn next(&mut self, byte: u8) {
        (**self).next(byte)
    }
}

/// What all sessions have: their numbers, what these ask for, and the reads and writes that were
/// made.
#[derive(Clone, Debug)]
struct Course {
    words: [u64; STEP_WORDS],
    request: raw::vd_request,
    counts: Counts,
}

impl Course {
    /// A number of the outcome.
    fn number(&self, at: usize) -> u64 {
        self.words[OUTCOME + at]
    }

    /// What an operation gives, by its number.
    fn exchanged<T>(&self, refusal: Option<Refusal>, value: impl FnOnce(u64) -> T) -> Exchange<T> {
        let Counts { used, pairs } = self.counts;
        match refusal {
            None => Ok(Done { value: value(self.number(0)), used, pairs }),
            Some(refusal) => Err(Refused { refusal, done: self.counts }),
        }
    }
}

/// An operation on the ports that was begun. Each has a function that begins it, by the name that
/// the header has.
#[derive(Clone, Debug)]
pub struct Session<R> {
    course: Course,
    outcome: fn(&Course, Option<Refusal>) -> R,
}

impl<R> Steps for Session<R> {
    type Outcome = R;

    fn wanted(&self) -> Request<R> {
        debug_assert_eq!(self.course.request, raw::vd_wanted(&self.course.words));
        let raw::vd_request { kind, port, byte, refusal } = self.course.request;
        let port = if port == u32::from(Port::Data.number()) { Port::Data } else { Port::Status };
        match kind {
            READ => Request::Read(port),
            WRITE => Request::Write(port, byte as u8),
            _ => Request::Done((self.outcome)(&self.course, Refusal::answered(refusal, 0))),
        }
    }

    fn next(&mut self, byte: u8) {
        let Course { words, request, counts } = &mut self.course;
        match request.kind {
            READ => counts.used += 1,
            WRITE => counts.pairs += 1,
            _ => return,
        }
        *request = raw::vd_next(words, byte.into());
    }
}

impl<R> Session<R> {
    fn begin(
        operation: Operation,
        argument: impl Into<u64>,
        outcome: fn(&Course, Option<Refusal>) -> R,
    ) -> Session<R> {
        let mut words = [0; STEP_WORDS];
        let request = raw::vd_begin(&mut words, operation as u32, argument.into());
        Session { course: Course { words, request, counts: Counts::default() }, outcome }
    }
}

/// Operations that give nothing.
impl Session<Exchange<()>> {
    fn plain(operation: Operation, argument: impl Into<u64>) -> Self {
        Session::begin(operation, argument, |course, refusal| course.exchanged(refusal, drop))
    }

    /// Detects the first keyboard and asks it for scancode set 1: what [`Handler::initialize`] does
    /// at the ports.
    #[must_use]
    pub fn keyboard_init() -> Self {
        Session::plain(Operation::KeyboardInit, 0u8)
    }

    /// Resets the keyboard and waits for its self test.
    #[must_use]
    pub fn keyboard_reset() -> Self {
        Session::plain(Operation::KeyboardReset, 0u8)
    }

    /// Asks the keyboard for a scancode set, then which one it speaks: another one is no refusal.
    #[must_use]
    pub fn keyboard_set_scancode_set(set: ScancodeSet) -> Self {
        Session::plain(Operation::KeyboardSetScancodeSet, set as u8)
    }

    /// Sets repeat rate and delay.
    #[must_use]
    pub fn keyboard_set_repeat(byte: u8) -> Self {
        Session::plain(Operation::KeyboardSetRepeat, byte)
    }

    /// Resets the mouse, waits for its self test and reads one byte more.
    #[must_use]
    pub fn mouse_reset() -> Self {
        Session::plain(Operation::MouseReset, 0u8)
    }

    /// Has the mouse send packets.
    #[must_use]
    pub fn mouse_start_packets() -> Self {
        Session::plain(Operation::MouseStartPackets, 0u8)
    }

    /// Has the mouse stop sending packets.
    #[must_use]
    pub fn mouse_stop_packets() -> Self {
        Session::plain(Operation::MouseStopPackets, 0u8)
    }

    /// Sets the mouse's sampling rate.
    #[must_use]
    pub fn mouse_set_sampling_rate(rate: SamplingRate) -> Self {
        Session::plain(Operation::MouseSetSamplingRate, rate as u8)
    }

    /// Sets the mouse's resolution.
    #[must_use]
    pub fn mouse_set_resolution(resolution: Resolution) -> Self {
        Session::plain(Operation::MouseSetResolution, resolution as u8)
    }

    /// Applies preferences field by field, until a device refuses one. Fields outside their values
    /// are refused with 28 before anything is read or written.
    #[must_use]
    pub fn preferences_apply(preferences: Preferences) -> Self {
        let raw::vd_preferences { version, set, rate, resolution, lamps, repeat } =
            preferences.numbers();
        let numbers = [version, set, rate, resolution, lamps, repeat];
        // A byte for each; a number above 255 is outside the values, as 255 is of every field.
        let argument = numbers.iter().rev().fold(0, |bytes: u64, &n| bytes << 8 | u64::from(n.min(255)));
        Session::plain(Operation::PreferencesApply, argument)
    }
}

/// Operations that give a byte.
impl Session<Exchange<u8>> {
    /// Asks the keyboard which scancode set it speaks. A keyboard may also answer 0.
    #[must_use]
    pub fn keyboard_get_scancode_set() -> Self {
        Session::begin(Operation::KeyboardGetScancodeSet, 0u8, |course, refusal| {
            course.exchanged(refusal, |set| set as u8)
        })
    }

    /// Reads one byte of the keyboard without asking the status.
    #[must_use]
    pub fn keyboard_read_scancode() -> Self {
        Session::begin(Operation::KeyboardReadScancode, 0u8, |course, refusal| {
            course.exchanged(refusal, |byte| byte as u8)
        })
    }
}

impl Session<Exchange<KeyboardType>> {
    /// Asks what keyboard this is.
    #[must_use]
    pub fn keyboard_detect() -> Self {
        Session::begin(Operation::KeyboardDetect, 0u8, |course, refusal| {
            course.exchanged(refusal, KeyboardType::of)
        })
    }
}

/// One read of the status.
impl Session<Exchange<bool>> {
    /// Whether the keyboard has a byte to read.
    #[must_use]
    pub fn keyboard_waits() -> Self {
        Session::begin(Operation::KeyboardWaits, 0u8, |course, refusal| {
            course.exchanged(refusal, |waits| waits != 0)
        })
    }

    /// Whether the mouse has a byte to read.
    #[must_use]
    pub fn mouse_waits() -> Self {
        Session::begin(Operation::MouseWaits, 0u8, |course, refusal| {
            course.exchanged(refusal, |waits| waits != 0)
        })
    }
}

/// Operations that hand back the bytes that they read and threw away.
impl Session<Command> {
    fn command(operation: Operation, argument: impl Into<u64>) -> Self {
        Session::begin(operation, argument, |course, refusal| {
            let Counts { used, pairs } = course.counts;
            let done = Commanded { used, pairs, kept: kept(&raw::vd_step_kept(&course.words)) };
            settled(refusal, done, done)
        })
    }

    /// Sends one command byte to the keyboard, up to four times until it is acknowledged.
    #[must_use]
    pub fn keyboard_command(command: KeyboardCommand) -> Self {
        Session::command(Operation::KeyboardCommand, command as u8)
    }

    /// Lights these lamps of the keyboard, and puts out the others.
    #[must_use]
    pub fn keyboard_set_lamps(lamps: Lamps) -> Self {
        Session::command(Operation::KeyboardSetLamps, lamps.bits())
    }

    /// Sends one command byte to the mouse, up to four times until it is acknowledged.
    #[must_use]
    pub fn mouse_command(command: MouseCommand) -> Self {
        Session::command(Operation::MouseCommand, command as u8)
    }
}

impl Session<Exchange<Identity>> {
    /// Asks the mouse for its identity.
    #[must_use]
    pub fn mouse_get_identity() -> Self {
        Session::begin(Operation::MouseGetIdentity, 0u8, |course, refusal| {
            course.exchanged(refusal, Identity::of)
        })
    }
}

/// The identity that a mouse has afterwards, after a refusal too.
pub type IdentitySet = Result<Done<Identity>, Refused<Done<Identity>>>;

impl Session<IdentitySet> {
    /// Tries to switch wheel and side buttons on. `identity` is the one that is known.
    #[must_use]
    pub fn mouse_set_identity(identity: Identity) -> Self {
        Session::begin(Operation::MouseSetIdentity, identity.number(), |course, refusal| {
            let Counts { used, pairs } = course.counts;
            let done = Done { value: Identity::of(course.number(0)), used, pairs };
            settled(refusal, done, done)
        })
    }
}

impl Session<Exchange<Packet>> {
    /// Reads the packet that a mouse of this identity sends: three bytes or four, without asking
    /// the status.
    ///
    /// ```
    /// use vurdellow::{Identity, Request, Session, Steps};
    /// let mut session = Session::mouse_read_packet(Identity::NoWheel);
    /// for byte in [0x29, 0x05, 0xFE] {
    ///     session.next(byte);
    /// }
    /// let Request::Done(Ok(done)) = session.wanted() else { panic!("it has three bytes") };
    /// assert!(done.value.left() && done.value.x == 5 && done.value.y == -2);
    /// ```
    #[must_use]
    pub fn mouse_read_packet(identity: Identity) -> Self {
        Session::begin(Operation::MouseReadPacket, identity.number(), |course, refusal| {
            let [buttons, x, y, wheel] = [0, 1, 2, 3].map(|at| course.number(at));
            let packet = Packet::of(buttons as u32, x as i32, y as i32, wheel as i32);
            course.exchanged(refusal, |_| packet)
        })
    }
}

impl Session<Exchange<Controller>> {
    /// Tests the controller and its ports, enables them and resets the devices, as
    /// [`Controller::initialize`] does. It gives the record that is to be kept. If it is refused,
    /// the record that was passed is to be kept.
    #[must_use]
    pub fn controller_init(controller: Controller) -> Self {
        let flags = [controller.initialized, controller.keyboard, controller.mouse];
        let argument = flags.iter().rev().fold(0u8, |bits, &flag| bits << 1 | u8::from(flag));
        Session::begin(Operation::ControllerInit, argument, |course, refusal| {
            let [initialized, keyboard, mouse] = [0, 1, 2].map(|at| course.number(at) != 0);
            course.exchanged(refusal, |_| Controller { initialized, keyboard, mouse })
        })
    }
}

/// A handler call, begun. The handler changes at the end of it, or not at all.
///
/// It has the handler, or borrows it (`H` is [`Handler`] or `&mut Handler`): whoever keeps a call
/// in a static, for an interrupt, lets it have the handler.
///
/// The call is made again with each byte, on all bytes so far, until it lacks none. That comes to
/// the whole call, with its reads and writes (`so_far`, docs/CUT-SCRIPTS.md of the repository). A
/// lock reads seven bytes if the keyboard answers at once. Over a keyboard that says nothing a call
/// is made some 65,000 times, which takes seconds. Without the feature `std` it has room for 1,024
/// bytes, and is refused with script ends (2) if that is used up.
#[derive(Clone, Debug)]
pub struct Handling<H> {
    handler: H,
    side: Side,
    script: Script,
    log: [u8; HANDLER_LOG],
    /// How many of the log's pairs were written to the ports.
    made: usize,
    answer: Result<Handled, Refused<Handled>>,
}

impl<H: BorrowMut<Handler>> Handling<H> {
    /// Begins to handle one byte of a side: the oldest that waits, or otherwise the one that is
    /// read first.
    #[must_use]
    pub fn begin(mut handler: H, side: Side) -> Handling<H> {
        let (script, mut log) = (Script::default(), [0; HANDLER_LOG]);
        let answer = handler.borrow_mut().handle(side, script.bytes(), &mut log);
        Handling { handler, side, script, log, made: 0, answer }
    }

    /// The handler, which has not changed if the call has not ended.
    #[must_use]
    pub fn into_handler(self) -> H {
        self.handler
    }
}

impl<H: BorrowMut<Handler>> Steps for Handling<H> {
    type Outcome = Result<Handled, Refused<Handled>>;

    fn wanted(&self) -> Request<Self::Outcome> {
        if self.made < self.answer.pairs() {
            let port = if self.log[2 * self.made] == Port::Data.number() {
                Port::Data
            } else {
                Port::Status
            };
            return Request::Write(port, self.log[2 * self.made + 1]);
        }
        match self.answer.lacks() {
            Some(port) if self.script.has_room() => Request::Read(port),
            _ => Request::Done(self.answer),
        }
    }

    fn next(&mut self, byte: u8) {
        match self.wanted() {
            Request::Write(..) => self.made += 1,
            Request::Read(_) => {
                self.script.push(byte);
                let handler = self.handler.borrow_mut();
                // After a lack it is as it was, and what was written comes first again.
                self.answer = handler.handle(self.side, self.script.bytes(), &mut self.log);
            }
            Request::Done(_) => {}
        }
    }
}

/// The bytes that a call has read.
#[cfg(feature = "std")]
#[derive(Clone, Debug, Default)]
struct Script(Vec<u8>);

#[cfg(feature = "std")]
impl Script {
    fn bytes(&self) -> &[u8] {
        &self.0
    }

    fn has_room(&self) -> bool {
        true
    }

    fn push(&mut self, byte: u8) {
        self.0.push(byte);
    }
}

/// The bytes that a call has read.
#[cfg(not(feature = "std"))]
#[derive(Clone, Debug)]
struct Script {
    bytes: [u8; 1024],
    length: usize,
}

#[cfg(not(feature = "std"))]
impl Default for Script {
    fn default() -> Script {
        Script { bytes: [0; 1024], length: 0 }
    }
}

#[cfg(not(feature = "std"))]
impl Script {
    fn bytes(&self) -> &[u8] {
        &self.bytes[..self.length]
    }

    fn has_room(&self) -> bool {
        self.length < self.bytes.len()
    }

    fn push(&mut self, byte: u8) {
        self.bytes[self.length] = byte;
        self.length += 1;
    }
}

impl Handler {
    /// Begins a handler call that goes on a byte at a time.
    ///
    /// ```
    /// use vurdellow::{Handler, Port, Request, Side, Steps};
    /// let mut handler = Handler::default();
    /// let mut call = handler.handling(Side::First);
    /// assert_eq!(call.wanted(), Request::Read(Port::Data));
    /// call.next(0x1E);
    /// assert!(matches!(call.wanted(), Request::Done(Ok(_))));
    /// assert_eq!(handler.take().and_then(|event| event.character()), Some('a'));
    /// ```
    #[must_use]
    pub fn handling(&mut self, side: Side) -> Handling<&mut Handler> {
        Handling::begin(self, side)
    }
}
