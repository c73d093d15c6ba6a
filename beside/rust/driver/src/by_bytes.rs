//! The operations a byte at a time (`vd_begin`, `vd_next`, `vd_wanted`, `vd_step_kept`), each held
//! to the export that is lent a whole script: what is asked for is what that call reads and writes,
//! and both come to the same.

use crate::library::{self as vd, *};
use crate::port::{Port, Refusing};

/// How many numbers an operation has, and where its outcome is.
pub const STEP_WORDS: usize = 256;
const OUTCOME: usize = 8;

/// The operations, as the header numbers them.
pub mod operation {
    pub const CONTROLLER_INIT: u32 = 1;
    pub const KEYBOARD_INIT: u32 = 2;
    pub const KEYBOARD_RESET: u32 = 3;
    pub const KEYBOARD_COMMAND: u32 = 4;
    pub const KEYBOARD_LAMPS: u32 = 5;
    pub const KEYBOARD_SET_SCANCODE_SET: u32 = 6;
    pub const KEYBOARD_SCANCODE_SET: u32 = 7;
    pub const KEYBOARD_DETECT: u32 = 8;
    pub const KEYBOARD_REPEAT: u32 = 9;
    pub const KEYBOARD_WAITS: u32 = 10;
    pub const KEYBOARD_READ_SCANCODE: u32 = 11;
    pub const MOUSE_RESET: u32 = 12;
    pub const MOUSE_START_PACKETS: u32 = 13;
    pub const MOUSE_STOP_PACKETS: u32 = 14;
    pub const MOUSE_IDENTITY: u32 = 15;
    pub const MOUSE_SET_IDENTITY: u32 = 16;
    pub const MOUSE_COMMAND: u32 = 17;
    pub const MOUSE_SAMPLING_RATE: u32 = 18;
    pub const MOUSE_RESOLUTION: u32 = 19;
    pub const MOUSE_WAITS: u32 = 20;
    pub const MOUSE_READ_PACKET: u32 = 21;
    pub const PREFERENCES_APPLY: u32 = 22;
    pub const LAST: u32 = PREFERENCES_APPLY;
}

/// Preferences as an argument, a byte for each number. One above 255 is outside the values, as 255 is.
pub fn argument_of(preferences: PreferencesWords) -> u64 {
    let PreferencesWords { version, set, rate, resolution, lamps, repeat } = preferences;
    let numbers = [version, set, rate, resolution, lamps, repeat];
    numbers.iter().rev().fold(0, |bytes, &n| bytes << 8 | u64::from(n.min(255)))
}

/// The kinds of requests.
const DONE: u32 = 0;
const READ: u32 = 1;
const WRITE: u32 = 2;

impl Refusing for RequestWords {
    fn refusal(&mut self) -> &mut u32 {
        &mut self.refusal
    }
}

/// An operation over a script that has all its bytes, as a driver of real ports goes through it:
/// how it was refused, and what was read and written.
pub fn through(
    operation: u32,
    argument: u64,
    script: &[u8],
    log: &mut [u8],
) -> (u32, usize, usize) {
    let mut words = [0; STEP_WORDS];
    let mut request = vd::begin(&mut words, operation, argument);
    let (mut used, mut pairs) = (0, 0);
    while request.kind != DONE {
        let mut byte = 0;
        if request.kind == WRITE {
            log[2 * pairs] = request.port as u8;
            log[2 * pairs + 1] = request.byte as u8;
            pairs += 1;
        } else {
            byte = script[used].into();
            used += 1;
        }
        request = vd::next(&mut words, byte);
    }
    (request.refusal, used, pairs)
}

/// What an operation came to, on a script and in a log that may both be too short for it.
pub struct Came {
    /// Without the value.
    pub answer: PortWords,
    pub log: Vec<u8>,
    pub outcome: [u64; 4],
    pub kept: KeptWords,
}

impl Came {
    /// Whether a call on the whole script read and wrote the same, and was refused the same.
    pub fn is_as(&self, answer: PortWords, log: &[u8]) -> Result<(), String> {
        let own = PortWords { value: 0, ..answer };
        match self.answer == own && self.log[..] == log[..2 * answer.pairs.min(log.len() / 2)] {
            true => Ok(()),
            false => Err(format!(
                "a byte at a time it is {:?} {:02X?}, and not {own:?} {log:02X?}",
                self.answer, self.log
            )),
        }
    }

    /// Whether these numbers are the outcome.
    pub fn gives(&self, numbers: &[u64]) -> Result<(), String> {
        match self.outcome[..numbers.len()] == *numbers
            && self.outcome[numbers.len()..].iter().all(|&n| n == 0)
        {
            true => Ok(()),
            false => {
                Err(format!("a byte at a time it gives {:?}, and not {numbers:?}", self.outcome))
            }
        }
    }
}

impl Port {
    /// Goes through an operation with the script's bytes, as long as there are some and the log has
    /// room.
    pub fn by_bytes(
        &mut self,
        operation: u32,
        argument: u64,
        script: &[u8],
        room: usize,
    ) -> Result<Came, String> {
        let mut words: Vec<u64> = (0..STEP_WORDS).map(|_| self.rng.next()).collect();
        let mut request = vd::begin(&mut words, operation, argument);
        let (mut used, mut log, mut lack) = (0, Vec::new(), (0, 0));
        self.count("vd_begin");
        loop {
            // Now and then it is asked once more, and goes on from a copy.
            if self.rng.once_in(16) {
                let copy = words.clone();
                if vd::wanted(&copy) != request || copy != words {
                    return Err(format!(
                        "{:?} is wanted, and then {:?}",
                        request,
                        vd::wanted(&copy)
                    ));
                }
                self.count("vd_wanted");
                words = copy;
            }
            let RequestWords { kind, port, byte, refusal } = request;
            let is_told = match kind {
                DONE => port == 0 && byte == 0 && !matches!(refusal, 2 | 3),
                READ => matches!(port, 0x60 | 0x64) && byte == 0 && refusal == 0,
                WRITE => matches!(port, 0x60 | 0x64) && byte < 256 && refusal == 0,
                _ => false,
            };
            if !is_told {
                return Err(format!("the request {request:?}"));
            }
            let given = match kind {
                READ if used == script.len() => {
                    lack = (2, port);
                    break;
                }
                WRITE if log.len() + 2 > room => {
                    lack = (3, 0);
                    break;
                }
                READ => {
                    used += 1;
                    script[used - 1].into()
                }
                WRITE => {
                    log.extend([port as u8, byte as u8]);
                    self.rng.below(256) as u32
                }
                _ => break,
            };
            request = vd::next(&mut words, given);
            self.count("vd_next");
        }
        let kept = vd::step_kept(&words);
        self.count("vd_step_kept");
        if (kept.refusal, kept.port, kept.used, kept.pairs) != (0, 0, 0, 0)
            && !matches!(request.refusal, 21 | 255)
        {
            return Err(format!("the bytes kept {kept:?}"));
        }
        let (refusal, port) = if request.kind == DONE { (request.refusal, 0) } else { lack };
        if request.kind == DONE {
            let before = words.clone();
            let after = vd::next(&mut words, 0);
            if (after, &words) != (RequestWords { refusal: 21, ..RequestWords::zero() }, &before) {
                return Err(format!("behind the end {after:?}"));
            }
        }
        let mut outcome = [0; 4];
        if request.kind == DONE {
            outcome.copy_from_slice(&words[OUTCOME..OUTCOME + 4]);
        }
        let answer = PortWords { refusal, port, used, pairs: log.len() / 2, value: 0 };
        Ok(Came { answer, log, outcome, kept })
    }

    /// A byte at a time an operation comes to what the call came to, with these numbers where it is
    /// not refused.
    pub fn alike_by_bytes(
        &mut self,
        (operation, argument): (u32, u64),
        script: &[u8],
        answer: PortWords,
        log: &[u8],
        numbers: &[u64],
    ) -> Result<Came, String> {
        let came = self.by_bytes(operation, argument, script, log.len())?;
        came.is_as(answer, log)?;
        came.gives(if answer.refusal == 0 { numbers } else { &[] })?;
        Ok(came)
    }

    /// The same, with the bytes that were thrown away: after a lack a call hands none back.
    pub fn kept_by_bytes(
        &mut self,
        told: (u32, u64),
        script: &[u8],
        answer: KeptWords,
        log: &[u8],
    ) -> Result<(), String> {
        let KeptWords { refusal, port, used, pairs, count, others, bytes } = answer;
        let came = self.alike_by_bytes(
            told,
            script,
            PortWords { refusal, port, used, pairs, value: 0 },
            log,
            &[],
        )?;
        let KeptWords { count: own_count, others: own_others, bytes: own_bytes, .. } = came.kept;
        match matches!(refusal, 2 | 3)
            || (count, others, bytes) == (own_count, own_others, own_bytes)
        {
            true => Ok(()),
            false => Err(format!("a byte at a time {:?} is kept, and not {answer:?}", came.kept)),
        }
    }
}
