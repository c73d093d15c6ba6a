//! The keyboard handler: its record, the handler call and the taking of events.

use crate::raw;
use crate::refusal::{exchanged, settled, Counted, Exchange, Refusal, Refused};
use crate::{Event, Modifiers, Side};

/// How many numbers a handler's record has.
pub const HANDLER_WORDS: usize = 144;

/// Log bytes with which no handler call, and no step of a dispatcher, ends in [`Refusal::LogFull`].
pub const HANDLER_LOG: usize = 20;

/// Log bytes with which no call at all ends in [`Refusal::LogFull`].
pub const LOG_BYTES: usize = 160;

/// The places in a record of the flags and the number of waiting bytes of either side, and of the number of waiting events.
pub(crate) const FIRST_FLAGS: usize = 1;
pub(crate) const FIRST_WAITING: usize = 2;
pub(crate) const SECOND_FLAGS: usize = 6;
pub(crate) const SECOND_WAITING: usize = 7;
pub(crate) const EVENTS_WAITING: usize = 13;

/// How many keyboards the table has.
#[derive(Clone, Copy, Debug, PartialEq, Eq, Hash)]
pub enum Keyboards {
    /// One keyboard, whose events may fill the queue of 128.
    One,
    /// Two keyboards, of whose events each side may fill 96 places.
    Two,
}

impl Keyboards {
    /// 1 or 2.
    #[must_use]
    pub const fn number(self) -> u32 {
        match self {
            Keyboards::One => 1,
            Keyboards::Two => 2,
        }
    }
}

/// Which keys are queued: any, or those of rated games, under which locks do nothing.
#[derive(Clone, Copy, Debug, PartialEq, Eq, Hash)]
pub enum Profile {
    /// Every key makes an event.
    Any,
    /// The keys of rated games alone make events; the others are refused, outside the profile (33).
    Tournament,
}

impl Profile {
    /// 0 or 1.
    #[must_use]
    pub const fn number(self) -> u32 {
        match self {
            Profile::Any => 0,
            Profile::Tournament => 1,
        }
    }
}

/// What a handler call did, refused or not.
#[derive(Clone, Copy, Debug, Default, PartialEq, Eq)]
pub struct Handled {
    /// Script bytes used; none if a waiting byte was taken.
    pub used: usize,
    /// Pairs written to the log.
    pub pairs: usize,
    /// Whether a lock's lamp exchange failed (14), which changes nothing else.
    pub lamps_failed: bool,
    /// Bytes of the lamp exchange that were lost since 16 wait already.
    pub dropped: u32,
}

impl Counted for Handled {
    fn used(&self) -> usize {
        self.used
    }

    fn pairs(&self) -> usize {
        self.pairs
    }
}

/// The result of a handler call's answer.
pub(crate) fn handled(answer: raw::vd_handled) -> Result<Handled, Refused<Handled>> {
    let done =
        Handled { used: answer.used, pairs: answer.pairs, lamps_failed: answer.lamps != 0, dropped: answer.dropped };
    settled(Refusal::answered(answer.refusal, answer.port), done, done)
}

/// A keyboard handler: for each side the prefix, the flags and the bytes that wait, and the queue of events.
///
/// ```
/// use vurdellow::{Handler, Keyboards, Keycode, Profile, Side, HANDLER_LOG};
///
/// let mut handler = Handler::new(Keyboards::One, Profile::Any);
/// let (script, mut log) = ([0x2A, 0x1E], [0; HANDLER_LOG]); // Shift, then A
/// let mut used = 0;
/// while used < script.len() {
///     used += handler.handle(Side::First, &script[used..], &mut log)?.used;
/// }
/// let events: Vec<_> = handler.events().collect();
/// assert_eq!(events[0].keycode, Keycode::LeftShift);
/// assert_eq!(events[1].character(), Some('A'));
/// assert!(events[1].modifiers.is_shift());
/// # Ok::<(), vurdellow::Refused<vurdellow::Handled>>(())
/// ```
#[derive(Clone, Debug, PartialEq, Eq)]
// So the first sixteen numbers, of which every call writes some, lie on one page: docs/PERFORMANCE.md.
#[repr(align(128))]
pub struct Handler {
    /// Well formed: it was made fresh (`fresh_well`) or tested, and every call leaves it so (`well_handled`, `well_taken`).
    words: [u64; HANDLER_WORDS],
}

impl Handler {
    /// A fresh handler: nothing held, no lock on, nothing waits.
    #[must_use]
    pub fn new(keyboards: Keyboards, profile: Profile) -> Handler {
        let mut words = [0; HANDLER_WORDS];
        let refusal = raw::vd_handler_fresh(&mut words, keyboards.number(), profile.number());
        debug_assert_eq!(refusal, 0);
        Handler { words }
    }

    /// The handler that a record's numbers stand for, as [`words`](Handler::words) gave them.
    /// Refused with [`Refusal::MalformedRecord`] if they can't be a record's.
    ///
    /// ```
    /// use vurdellow::{Handler, Keyboards, Profile, Refusal, HANDLER_WORDS};
    /// let handler = Handler::new(Keyboards::Two, Profile::Any);
    /// assert_eq!(Handler::from_words(*handler.words()), Ok(handler));
    /// assert_eq!(Handler::from_words([u64::MAX; HANDLER_WORDS]), Err(Refusal::MalformedRecord));
    /// ```
    pub fn from_words(words: [u64; HANDLER_WORDS]) -> Result<Handler, Refusal> {
        // A taking is refused exactly if the record is malformed (`taken_number`); this one is from a copy.
        let mut tried = words;
        match Refusal::answered(raw::vd_take(&mut tried).refusal, 0) {
            None => Ok(Handler { words }),
            Some(refusal) => Err(refusal),
        }
    }

    /// The record's numbers, to be stored or sent.
    #[must_use]
    pub fn words(&self) -> &[u64; HANDLER_WORDS] {
        &self.words
    }

    /// Detects the first keyboard, asks it for scancode set 1, and makes this handler a fresh one.
    ///
    /// After a lack (2, 3) the handler is as it was; after any other refusal it is a fresh one all the same.
    pub fn initialize(
        &mut self,
        keyboards: Keyboards,
        profile: Profile,
        script: &[u8],
        log: &mut [u8],
    ) -> Exchange<()> {
        exchanged(raw::vd_keyboard_init(&mut self.words, keyboards.number(), profile.number(), script, log), |_| ())
    }

    /// Handles one byte of a side: the oldest that waits, or otherwise the next of the script. A lock also runs its lamp exchange.
    ///
    /// After a lack (2, 3) and after 21 (the side is not at the table) the handler is as it was. After 19, 20, 31 and 33 flags and
    /// prefix have moved on, and no event was queued.
    pub fn handle(&mut self, side: Side, script: &[u8], log: &mut [u8]) -> Result<Handled, Refused<Handled>> {
        handled(raw::vd_handle(&mut self.words, side.number(), script, log))
    }

    /// Takes the oldest event, if one waits.
    pub fn take(&mut self) -> Option<Event> {
        Event::taken(raw::vd_take(&mut self.words))
    }

    /// Takes the events that wait, the oldest first. What is not taken stays.
    pub fn events(&mut self) -> Events<'_> {
        Events { words: &mut self.words }
    }

    /// How many events wait.
    #[must_use]
    pub fn waiting_events(&self) -> usize {
        self.words[EVENTS_WAITING] as usize
    }

    /// How many bytes of a side wait to be handled: a lamp exchange caught them.
    #[must_use]
    pub fn waiting_bytes(&self, side: Side) -> usize {
        waiting_bytes(&self.words, side)
    }

    /// The modifier keys of a side that are held, and its locks that are on.
    #[must_use]
    pub fn modifiers(&self, side: Side) -> Modifiers {
        let at = match side {
            Side::First => FIRST_FLAGS,
            Side::Second => SECOND_FLAGS,
        };
        Modifiers::from_bits(self.words[at] as u16)
    }
}

/// A fresh handler of one keyboard, every key of which makes an event.
impl Default for Handler {
    fn default() -> Handler {
        Handler::new(Keyboards::One, Profile::Any)
    }
}

pub(crate) fn waiting_bytes(words: &[u64], side: Side) -> usize {
    let at = match side {
        Side::First => FIRST_WAITING,
        Side::Second => SECOND_WAITING,
    };
    words[at] as usize
}

/// Takes events from a handler or a dispatcher, as many as are asked for.
#[derive(Debug)]
pub struct Events<'a> {
    pub(crate) words: &'a mut [u64],
}

impl Iterator for Events<'_> {
    type Item = Event;

    fn next(&mut self) -> Option<Event> {
        Event::taken(raw::vd_take(self.words))
    }

    fn size_hint(&self) -> (usize, Option<usize>) {
        let waiting = self.words[EVENTS_WAITING] as usize;
        (waiting, Some(waiting))
    }
}

impl ExactSizeIterator for Events<'_> {}
impl core::iter::FusedIterator for Events<'_> {}
