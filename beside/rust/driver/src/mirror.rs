//! A call made by the mirror: the Rust's own functions as they stand once more in Rattle (crates/theseus_ps2, theseus_keyboard and
//! theseus_keycodes), by the exports of crates/theseus_calls. Its recording stops where it lacks a byte or room, and says what was
//! asked for; the Rust is unwound there.
//!
//! What the mirror lacks the Rust lacks too (`Op::beyond_rust`), and its log macros say nothing, as the Rust's do where logging is
//! off: that a handler call answers 14, 19 or 20 is told by the Rust's log alone, so `is_alike` leaves these numbers out. The event
//! that 19 and 20 keep out, and the log of the exchange that 14 ends, are compared.

use crate::answer::{Answer, Done, Keyboard, Packet, Record, Value};
use crate::compare::changed;
use crate::call::{Call, Controller, Handler, KeyEvent, KeyboardOp, MouseOp, Op, Remembered, Side, Step, MOST_CALLS};
use crate::device::Rng;
use crate::kept::Kept;
use crate::library::{rusts, ControllerWords, InterruptWords, NotedWords, PacketFields};
use crate::oracle::{to_flags, Oracle};
use crate::port::Lent;
use crate::sides::Answerer;
use std::collections::VecDeque;

/// The mirror, called by its exports.
pub struct Mirror {
    rng: Rng,
    /// The port of the read that the last call lacked a byte for.
    pub lacked: Option<u32>,
}

/// The handler's state as the Rust has it; its flags have the Rust's numbers.
#[derive(Clone)]
struct State {
    prefix: bool,
    flags: u16,
    queue: VecDeque<KeyEvent>,
}

/// The Rust's numbers of flags that have document 01's.
fn rusts_flags(flags: u16) -> u16 {
    to_flags(flags).bits()
}

/// Document 01's numbers of flags that have the Rust's; there must be no other.
fn own_flags(flags: u32) -> Result<u16, String> {
    let own = (0..10).map(|bit| 1 << bit).filter(|&flag| flags & rusts_flags(flag) as u32 != 0).sum();
    if rusts_flags(own) as u32 == flags {
        Ok(own)
    } else {
        Err(format!("the flags {flags:#x}"))
    }
}

impl Mirror {
    pub fn new(seed: u64) -> Mirror {
        Mirror { rng: Rng(seed), lacked: None }
    }

    /// The answer to a call of the Rust's; of a table with two keyboards the first.
    pub fn answer(&mut self, call: &Call) -> Result<Answer, String> {
        for _ in 1..call.repeat {
            self.called(call)?;
        }
        self.called(call)
    }

    /// Whether the mirror answers a call as the Rust does, where that has such a call. If not, what is otherwise. Its answer is
    /// changed on its way where that is asked for, so that this can be seen to find it.
    pub fn agree(&mut self, rust: &mut Oracle, call: &Call, damaged: bool) -> Result<(), String> {
        if call.op.without_show().beyond_rust().is_some() {
            return Ok(());
        }
        let (own, theirs) = (self.answer(call)?, rust.answer(call));
        let own = if damaged { changed(own) } else { own };
        if !self.is_alike(&own, &theirs) {
            return Err(format!("# the mirror\n{own}\n# the Rust\n{theirs}"));
        }
        // The recording says which port was asked; the Rust's, where it was unwound, knows it too.
        match self.lacked {
            Some(port) if port != rust.port_lacked() as u32 => {
                Err(format!("the mirror lacks a byte of the port {port:#x}, the Rust one of {:#x}", rust.port_lacked()))
            }
            _ => Ok(()),
        }
    }

    fn called(&mut self, call: &Call) -> Result<Answer, String> {
        let Call { op, script, room, .. } = call;
        self.lacked = None;
        match op {
            Op::Handle(handler, plan) => self.run(handler, plan, script, *room),
            Op::ToAscii(keycode, flags) => {
                let character = match rusts::character(*keycode, rusts_flags(*flags)) {
                    0 => None,
                    character @ 1..=127 => Some(character as u8),
                    other => return Err(format!("the character {other}")),
                };
                let (log, value) = (Vec::new(), Value::Character(character));
                Ok(Answer::Call { end: 0, used: 0, log, value, record: Record::Nothing })
            }
            Op::Kept(op) => self.port_operation(op, script, *room, true),
            op => self.port_operation(op, script, *room, false),
        }
    }

    /// An operation on the ports; `shows` says whether its answer has the bytes that it threw away.
    fn port_operation(&mut self, op: &Op, script: &[u8], room: usize, shows: bool) -> Result<Answer, String> {
        use KeyboardOp as K;
        use MouseOp as M;
        let mut lent = Lent::new(room, &mut self.rng);
        let log = &mut lent.bytes;
        let mut record = match op {
            Op::Mouse(_, Some(id)) => Record::Mouse(*id),
            _ => Record::Nothing,
        };
        let mut packet = None;
        let words = match *op {
            Op::Init(Controller { init, kbd, mouse }) => {
                let [initialized, keyboard, mouse] = [init, kbd, mouse].map(u32::from);
                let words = rusts::controller_init(ControllerWords { initialized, keyboard, mouse }, script, log);
                let is = |number: u32| match number {
                    0 | 1 => Ok(number == 1),
                    _ => Err(format!("{number} in a controller's record")),
                };
                let left = words.controller;
                let (init, kbd, mouse) = (is(left.initialized)?, is(left.keyboard)?, is(left.mouse)?);
                record = Record::Controller(Controller { init, kbd, mouse });
                words.run
            }
            Op::ControllerTest => rusts::controller_test(script, log),
            Op::TestPort1 => rusts::port1_test(script, log),
            Op::TestPort2 => rusts::port2_test(script, log),
            Op::ReadConfig => rusts::configuration_read(script, log),
            Op::WriteConfig(byte) => rusts::configuration_write(byte, script, log),
            Op::PollingSend(set) => rusts::polling_send(set as u32, script, log),
            Op::PollingReceive => rusts::polling_receive(script, log),
            Op::Keyboard(K::Command(byte)) => rusts::keyboard_command(byte as u32, script, log),
            Op::Keyboard(K::DataSet(set)) => rusts::keyboard_data_set(set as u32, script, log),
            Op::Keyboard(K::DataLed(lamps)) => rusts::keyboard_data_lamps(lamps as u32, script, log),
            Op::Keyboard(K::Reset) => rusts::keyboard_reset(script, log),
            Op::Keyboard(K::SetLed(lamps)) => rusts::keyboard_lamps(lamps as u32, script, log),
            Op::Keyboard(K::SetScancodeSet(set)) => rusts::keyboard_set_scancode_set(set as u32, script, log),
            Op::Keyboard(K::GetScancodeSet) => rusts::keyboard_scancode_set(script, log),
            Op::Keyboard(K::Detect) => rusts::keyboard_detect(script, log),
            Op::Mouse(M::Command(byte), _) => rusts::mouse_command(byte as u32, script, log),
            Op::Mouse(M::DataRate(rate), _) => rusts::mouse_data_rate(rate as u32, script, log),
            Op::Mouse(M::DataResolution(number), _) => rusts::mouse_data_resolution(number as u32, script, log),
            Op::Mouse(M::Reset, _) => rusts::mouse_reset(script, log),
            Op::Mouse(M::Enable, _) => rusts::mouse_start_packets(script, log),
            Op::Mouse(M::Disable, _) => rusts::mouse_stop_packets(script, log),
            Op::Mouse(M::SetSamplingRate(rate), _) => rusts::mouse_sampling_rate(rate as u32, script, log),
            Op::Mouse(M::Resolution(number), _) => rusts::mouse_resolution(number as u32, script, log),
            Op::Mouse(M::Id, _) => rusts::mouse_identity(script, log),
            Op::Mouse(M::SetId, id) => rusts::mouse_set_identity(id.unwrap_or(0) as u32, script, log),
            Op::Mouse(M::ReadPacket, id) => {
                record = Record::Mouse(id.unwrap_or(0));
                let words = rusts::mouse_read_packet(id.unwrap_or(0) as u32, script, log);
                packet = Some(words.packet);
                words.run
            }
            Op::KeyboardInit { .. } => rusts::keyboard_init(script, log),
            Op::Handle(..)
            | Op::ToAscii(..)
            | Op::Mouse(M::ReadSignedPacket, _)
            | Op::ConvertSet2
            | Op::TypeText
            | Op::Salvage(_)
            | Op::Dispatch(_)
            | Op::ApplyPreferences(_)
            | Op::WritePreferences(_)
            | Op::ReadPreferences(_)
            | Op::Season(_)
            | Op::Kept(_) => return Err(format!("the mirror has no {}", op.name())),
        };
        let end = self.end(&words)?;
        let number = words.answer.value;
        let byte = || u8::try_from(number).map_err(|_| format!("the value {number}"));
        let value = match op {
            Op::Mouse(M::SetId, _) => {
                // The identity of the record that is left, after a refusal too.
                record = Record::Mouse(byte()?);
                Value::Nothing
            }
            Op::KeyboardInit { .. } => {
                // The Rust's statics begin so; the mirror's are whatever it is called with.
                record = if end == 0 { Record::Handler(Handler::default()) } else { Record::NoHandler };
                Value::Nothing
            }
            _ if end != 0 => Value::Nothing,
            Op::ReadConfig | Op::PollingReceive | Op::Keyboard(K::GetScancodeSet) | Op::Mouse(M::Id, _) => {
                Value::Byte(byte()?)
            }
            Op::Keyboard(K::Detect) => match number {
                1..=3 => Value::Keyboard(Keyboard::ALL[number as usize - 1]),
                _ => return Err(format!("the keyboard {number}")),
            },
            Op::Mouse(M::ReadPacket, _) => Value::Packet(packet_of(packet.unwrap_or_else(|| unreachable!()))?),
            _ if number != 0 => return Err(format!("the value {number}")),
            _ => Value::Nothing,
        };
        let log = lent.written(2 * words.answer.pairs)?;
        let answer = Answer::Call { end, used: words.answer.used, log, value, record };
        if !shows {
            return Ok(answer);
        }
        let count = words.count as usize;
        if count > words.bytes.len() || words.bytes[count..].iter().any(|&byte| byte != 0) {
            return Err(format!("{count} bytes of {:02X?}", words.bytes));
        }
        let (bytes, others) = (words.bytes[..count].to_vec(), words.others as usize);
        Ok(Answer::Kept(Kept { answer: Box::new(answer), bytes, others }))
    }

    /// The refusal of a run on a recording, whose port is noted where a byte was lacked.
    fn end(&mut self, words: &NotedWords) -> Result<u8, String> {
        let (refusal, port) = (words.answer.refusal, words.answer.port);
        match (refusal, port) {
            (2, 0x60 | 0x64) => self.lacked = Some(port),
            (2, _) | (_, 1..) => return Err(format!("the port {port:#x} of a lack beside the refusal {refusal}")),
            _ => {}
        }
        match refusal {
            0..=20 => Ok(refusal as u8),
            _ => Err(format!("the refusal {refusal}")),
        }
    }

    /// A run of interrupts and takings, until one lacks a byte: the record is then as it was before that.
    fn run(&mut self, handler: &Handler, plan: &[Step], script: &[u8], room: usize) -> Result<Answer, String> {
        let mut state = State {
            prefix: handler.first.ext,
            flags: rusts_flags(handler.first.flags),
            queue: handler.queue.iter().copied().collect(),
        };
        let (mut at, mut done) = (0, Vec::new());
        'run: for step in plan {
            let (times, until_used, each) = match *step {
                Step::Auto => (u64::MAX, true, false),
                Step::Each => (u64::MAX, true, true),
                Step::Handle(_, times) | Step::Take(times) => (times, false, false),
            };
            for turn in 0..times {
                if done.len() as u64 == 2 * MOST_CALLS {
                    return Err(format!("a run of more than {} calls", 2 * MOST_CALLS));
                }
                if matches!(step, Step::Take(_)) || each && turn % 2 == 1 {
                    done.push(Done::Taken(state.queue.pop_front()));
                    continue;
                }
                if until_used && at >= script.len() {
                    break;
                }
                let handled = self.interrupt(&mut state, &script[at..], room)?;
                let Done::Handled { used, end, .. } = handled else { unreachable!() };
                at += used;
                done.push(handled);
                if end != 0 {
                    break 'run;
                }
            }
        }
        let first = Remembered { ext: state.prefix, flags: own_flags(state.flags.into())?, ..Remembered::default() };
        let left = Handler { first, queue: state.queue.into(), ..Handler::default() };
        Ok(Answer::Run { done, left })
    }

    /// An interrupt; the event that it pushes joins the queue. After 2 and 3 the state is as passed in.
    fn interrupt(&mut self, state: &mut State, script: &[u8], room: usize) -> Result<Done, String> {
        let mut lent = Lent::new(room, &mut self.rng);
        let waited = state.queue.len();
        let words = rusts::interrupt(state.prefix, state.flags, waited, script, &mut lent.bytes);
        let InterruptWords { run, prefix, flags, count, event } = words;
        let end = self.end(&run)?;
        if !matches!(end, 0 | 2 | 3) || prefix > 1 || count != waited && count != waited + 1 {
            return Err(format!("an interrupt's answer {words:?}"));
        }
        let (used, log) = (run.answer.used, lent.written(2 * run.answer.pairs)?);
        if end == 0 {
            (state.prefix, state.flags) = (prefix == 1, flags as u16);
            if count > waited {
                let keycode = u8::try_from(event.keycode).map_err(|_| format!("the keycode {}", event.keycode))?;
                let flags = own_flags(event.flags)?;
                state.queue.push_back(KeyEvent { keycode, released: event.released == 1, flags, side: Side::First });
            }
        }
        Ok(Done::Handled { side: Side::First, used, log, end, lamps_failed: false, dropped: 0 })
    }
}

fn packet_of(words: PacketFields) -> Result<Packet, String> {
    if words.buttons > 31 || words.always_one > 1 {
        return Err(format!("the packet {words:?}"));
    }
    let bit = |n: u32| words.buttons >> n & 1 == 1;
    let bits = [bit(0), bit(1), bit(2), words.always_one == 1, bit(3), bit(4)];
    Ok(Packet { bits, movements: [words.x, words.y, words.wheel] })
}

/// A handler call without what the Rust's log alone tells.
fn without_logged(done: &Done) -> Done {
    match done {
        Done::Handled { side, used, log, end, dropped, .. } => Done::Handled {
            side: *side,
            used: *used,
            log: log.clone(),
            end: if matches!(end, 19 | 20) { 0 } else { *end },
            lamps_failed: false,
            dropped: *dropped,
        },
        other => other.clone(),
    }
}

impl Answerer for Mirror {
    fn name(&self) -> &'static str {
        "the mirror"
    }

    fn ask(&mut self, call: &Call) -> Result<Answer, String> {
        match call.op.without_show().beyond_rust() {
            Some(why) => Err(why.to_string()),
            None => self.answer(call),
        }
    }

    fn is_alike(&self, own: &Answer, rust: &Answer) -> bool {
        match (own, rust) {
            (Answer::Run { done, left }, Answer::Run { done: theirs, left: their_left }) => {
                left == their_left
                    && done.len() == theirs.len()
                    && done.iter().zip(theirs).all(|(one, other)| *one == without_logged(other))
            }
            _ => own == rust,
        }
    }
}

/// The mirror in the comparison, which sends runs of the first side at a table with two keyboards too: the Rust has one.
pub struct First(pub Mirror);

impl Answerer for First {
    fn name(&self) -> &'static str {
        self.0.name()
    }

    fn ask(&mut self, call: &Call) -> Result<Answer, String> {
        self.0.answer(call)
    }

    fn is_alike(&self, own: &Answer, rust: &Answer) -> bool {
        self.0.is_alike(own, rust)
    }
}
