//! The dispatcher, which serves two keyboards and a mouse by turns.

use crate::handler::{handled, waiting_bytes, Events, Handled, EVENTS_WAITING, HANDLER_WORDS};
use crate::mouse::{packet, Packet};
use crate::raw;
use crate::refusal::{Exchange, Outcome, Refusal, Refused};
use crate::{Event, Handler, Identity, Keyboards, Profile, Side};

/// How many numbers a dispatcher's state has; the first are its handler's record.
pub const DISPATCHER_WORDS: usize = 149;

/// The places in a state of the mouse's identity, of how far the three scripts are used, and of who was served last.
pub(crate) const IDENTITY: usize = 144;
pub(crate) const PLACES: usize = 145;
pub(crate) const LAST: usize = 148;

/// What a step can serve.
#[derive(Clone, Copy, Debug, PartialEq, Eq, Hash)]
pub enum Source {
    /// A side's keyboard.
    Keyboard(Side),
    /// The mouse.
    Mouse,
}

impl Source {
    /// 1 and 2 the sides, 3 the mouse; 0 is nobody.
    #[must_use]
    pub const fn number(self) -> u32 {
        match self {
            Source::Keyboard(side) => side.number(),
            Source::Mouse => 3,
        }
    }

    fn of(number: u64) -> Option<Source> {
        match number {
            1 => Some(Source::Keyboard(Side::First)),
            2 => Some(Source::Keyboard(Side::Second)),
            3 => Some(Source::Mouse),
            _ => None,
        }
    }
}

/// Whom a step served, and what the one call that it made came to.
#[derive(Clone, Copy, Debug, PartialEq, Eq)]
pub enum Step {
    /// A handler call for this side; its event, if it gave one, waits.
    Key(Side, Result<Handled, Refused<Handled>>),
    /// The reading of a packet.
    Packet(Exchange<Packet>),
    /// Nobody waited.
    Idle,
}

impl Step {
    /// Whom it served.
    #[must_use]
    pub fn source(&self) -> Option<Source> {
        match self {
            Step::Key(side, _) => Some(Source::Keyboard(*side)),
            Step::Packet(_) => Some(Source::Mouse),
            Step::Idle => None,
        }
    }

    /// Whether the source that was served got on: its script was used, or a waiting byte was taken.
    /// Where each of three steps in a row does not, and none is idle, no later step with the same scripts does either.
    #[must_use]
    pub fn is_progress(&self) -> bool {
        match self {
            Step::Key(_, call) => {
                call.used() > 0
                    || !matches!(
                        call.refusal(),
                        Some(Refusal::ScriptEnds(_) | Refusal::LogFull | Refusal::MalformedRecord)
                    )
            }
            Step::Packet(read) => read.used() > 0,
            Step::Idle => false,
        }
    }
}

/// A dispatcher: a handler, a mouse, how far each of three scripts is used, and who was served last.
///
/// ```
/// use vurdellow::{Dispatcher, Identity, Keyboards, Profile, Side, Step, HANDLER_LOG};
///
/// let mut table = Dispatcher::new(Keyboards::Two, Profile::Any, Identity::NoWheel);
/// let mut log = [0; HANDLER_LOG];
/// let (first, second, mouse) = ([0x1E, 0x9E], [0x30], [0x09, 0x05, 0x00]);
/// let mut sources = Vec::new();
/// while let Some(source) = table.step(&first, &second, &mouse, &mut log).source() {
///     sources.push(source.number());
/// }
/// assert_eq!(sources, [1, 2, 3, 1]);
/// let sides: Vec<_> = table.events().map(|event| event.side).collect();
/// assert_eq!(sides, [Side::First, Side::Second, Side::First]);
/// ```
#[derive(Clone, Debug, PartialEq, Eq)]
// As a handler's.
#[repr(align(128))]
pub struct Dispatcher {
    /// The record in it is well formed, as a [`Handler`]'s is.
    words: [u64; DISPATCHER_WORDS],
}

impl Dispatcher {
    /// A dispatcher that has served nobody, with a fresh handler and a mouse of this identity.
    #[must_use]
    pub fn new(keyboards: Keyboards, profile: Profile, identity: Identity) -> Dispatcher {
        let mut words = [0; DISPATCHER_WORDS];
        let refusal = raw::vd_dispatcher_fresh(&mut words, keyboards.number(), profile.number(), identity.number());
        debug_assert_eq!(refusal, 0);
        Dispatcher { words }
    }

    /// The dispatcher that a state's numbers stand for, as [`words`](Dispatcher::words) gave them.
    /// Refused with [`Refusal::MalformedRecord`] if its first 144 can't be a handler's record.
    pub fn from_words(words: [u64; DISPATCHER_WORDS]) -> Result<Dispatcher, Refusal> {
        let mut record = [0; HANDLER_WORDS];
        record.copy_from_slice(&words[..HANDLER_WORDS]);
        Handler::from_words(record)?;
        // Numbers that no dispatcher has are refused before a source is served; this step is one of a copy.
        let mut tried = words;
        let step = raw::vd_dispatcher_step(&mut tried, &[], &[], &[], &mut []);
        match Refusal::answered(step.refusal, 0) {
            Some(refusal) if step.source == 0 => Err(refusal),
            _ => Ok(Dispatcher { words }),
        }
    }

    /// The state's numbers, to be stored or sent.
    #[must_use]
    pub fn words(&self) -> &[u64; DISPATCHER_WORDS] {
        &self.words
    }

    /// Serves one source that waits, with one handler call or one packet: going round side 1, side 2 and the mouse from the one after the
    /// last served. The scripts are passed whole each time: the state knows how far each is used, and they may have grown.
    pub fn step(&mut self, first: &[u8], second: &[u8], mouse: &[u8], log: &mut [u8]) -> Step {
        let answer = raw::vd_dispatcher_step(&mut self.words, first, second, mouse, log);
        match answer.source {
            1 => Step::Key(Side::First, handled(answer.call)),
            2 => Step::Key(Side::Second, handled(answer.call)),
            3 => Step::Packet(packet(answer.packet)),
            _ => Step::Idle,
        }
    }

    /// Takes the oldest event, if one waits.
    pub fn take(&mut self) -> Option<Event> {
        Event::taken(raw::vd_take(&mut self.words[..HANDLER_WORDS]))
    }

    /// Takes the events that wait, the oldest first. What is not taken stays.
    pub fn events(&mut self) -> Events<'_> {
        Events { words: &mut self.words[..HANDLER_WORDS] }
    }

    /// How many events wait.
    #[must_use]
    pub fn waiting_events(&self) -> usize {
        self.words[EVENTS_WAITING] as usize
    }

    /// How many bytes of a side wait to be handled: a lamp exchange caught them.
    #[must_use]
    pub fn waiting_bytes(&self, side: Side) -> usize {
        waiting_bytes(&self.words, side)
    }

    /// How many bytes of a source's script are used.
    #[must_use]
    pub fn place(&self, source: Source) -> usize {
        self.words[PLACES + source.number() as usize - 1] as usize
    }

    /// The mouse's identity.
    #[must_use]
    pub fn identity(&self) -> Identity {
        Identity::of(self.words[IDENTITY])
    }

    /// Who was served last.
    #[must_use]
    pub fn last_served(&self) -> Option<Source> {
        Source::of(self.words[LAST])
    }
}
