//! A call made by the port's exports, those of the library and those for tests alone: its answer. What an answer says too much is an error.

use crate::answer::{Answer, Done, Keyboard, Packet, Record, Value};
use crate::by_bytes::{argument_of, operation as by};
use crate::call::{Call, Controller, Handler, KeyEvent, KeyboardOp, MouseOp, Op, Side, Step, MOST_CALLS};
use crate::device::Rng;
use crate::dispatch::{Dispatch, Dispatched, Made, Move};
use crate::kept::{self, Kept};
use crate::library::{self as vd, *};
use crate::prefs_apply::Preferences;
use crate::prefs_code::FieldsRead;
use crate::report::{Numbers, Reported, Season};
use crate::salvage::{Salvage, Salvaged};
use crate::sides::Answerer;
use crate::words::{self, DISPATCHER_WORDS, HANDLER_WORDS};
use std::collections::BTreeMap;

/// What of an answer is changed on its way, so that a comparison can be seen to find it.
#[derive(Clone, Copy, Debug, PartialEq)]
pub enum Part {
    /// The refusal's number.
    Refusal,
    /// A byte of the log or of an output; the refusal's number where that has none.
    Byte,
    /// A number of a lent record; the refusal's number where none is lent.
    Number,
}

/// The port, called by its exports.
pub struct Port {
    pub rng: Rng,
    /// How many calls of each export the last call of the line format took.
    pub made: BTreeMap<&'static str, u64>,
    /// The port of the read that the last call lacked a byte for.
    pub lacked: Option<u32>,
    pub damage: Option<Part>,
}

/// A log or an output that is lent, with what it held before.
pub struct Lent {
    pub bytes: Vec<u8>,
    before: Vec<u8>,
}

impl Lent {
    pub fn new(room: usize, rng: &mut Rng) -> Lent {
        let fill = rng.next() as u8;
        let before: Vec<u8> = (0..room).map(|i| fill.wrapping_add((i as u8).wrapping_mul(29))).collect();
        Lent { bytes: before.clone(), before }
    }

    /// The same, as it was lent.
    pub fn again(&self) -> Vec<u8> {
        self.before.clone()
    }

    /// What was written; all behind it must be as it was.
    pub fn written(self, count: usize) -> Result<Vec<u8>, String> {
        let Lent { mut bytes, before } = self;
        if count > bytes.len() {
            return Err(format!("{count} bytes are said to be written, and there is room for {}", bytes.len()));
        }
        match (count..bytes.len()).find(|&at| bytes[at] != before[at]) {
            Some(at) => Err(format!("byte {at}, which was not written, has changed")),
            None => {
                bytes.truncate(count);
                Ok(bytes)
            }
        }
    }
}

/// Answers of which the refusal is told first.
pub trait Refusing: Copy {
    fn refusal(&mut self) -> &mut u32;
}

macro_rules! refusing {
    ($($name:ident),*) => { $(impl Refusing for $name { fn refusal(&mut self) -> &mut u32 { &mut self.refusal } })* };
}

refusing!(PortWords, KeptWords, PacketWords, InitializedWords, HandledWords, TakenWords, StepWords, ConvertedWords);
refusing!(WrittenWords, SalvagedWords, PreferencesReadWords, ReportAddedWords, LongAddedWords);

impl Refusing for ReceivedWords {
    fn refusal(&mut self) -> &mut u32 {
        &mut self.answer.refusal
    }
}

impl Refusing for RustPacketWords {
    fn refusal(&mut self) -> &mut u32 {
        &mut self.packet.refusal
    }
}

impl Refusing for u32 {
    fn refusal(&mut self) -> &mut u32 {
        self
    }
}

fn packet_of(words: &PacketWords, one: u32) -> Result<Packet, String> {
    if words.buttons > 31 || one > 1 {
        return Err(format!("buttons {} and a bit {one}", words.buttons));
    }
    if words.refusal != 0 && (words.buttons, words.x, words.y, words.wheel, one) != (0, 0, 0, 0, 0) {
        return Err(format!("a packet beside the refusal {}", words.refusal));
    }
    let bit = |n: u32| words.buttons >> n & 1 == 1;
    Ok(Packet { bits: [bit(0), bit(1), bit(2), one == 1, bit(3), bit(4)], movements: [words.x, words.y, words.wheel] })
}

/// A record as a line tells it: a start that is a place is not told.
fn shown(words: &[u64]) -> Handler {
    let left = words::record_of(words);
    Handler { start: left.start_told(), ..left }
}

/// An answer without its value, and the bytes that were thrown away.
fn without_bytes(words: KeptWords) -> Result<(PortWords, Vec<u8>, usize), String> {
    let KeptWords { refusal, port, used, pairs, count, others, bytes } = words;
    let count = count as usize;
    if count > bytes.len() || bytes[count..].iter().any(|&byte| byte != 0) {
        return Err(format!("{count} bytes of {bytes:02X?}"));
    }
    Ok((PortWords { refusal, port, used, pairs, value: 0 }, bytes[..count].to_vec(), others as usize))
}

fn preferences_words(preferences: &Preferences, rng: &mut Rng) -> PreferencesWords {
    let field = |i: usize| preferences.fields[i];
    PreferencesWords {
        version: preferences.version as u32,
        set: field(0),
        rate: field(1),
        resolution: field(2),
        lamps: field(3),
        // Version 1 has no fifth field: it is not looked at.
        repeat: preferences.fields.get(4).copied().unwrap_or(rng.next() as u32),
    }
}

fn narrow(numbers: &Numbers) -> Report {
    let presses = numbers.presses.map(|count| count as u32);
    Report { presses, packets: numbers.packets as u32, x: numbers.x as i32, y: numbers.y as i32 }
}

fn long(numbers: &Numbers) -> LongReport {
    LongReport { presses: numbers.presses, packets: numbers.packets, x: numbers.x, y: numbers.y }
}

fn of_narrow(report: &Report) -> Numbers {
    let presses = report.presses.map(u64::from);
    Numbers { presses, packets: report.packets as u64, x: report.x as i64, y: report.y as i64 }
}

fn of_long(report: &LongReport) -> Numbers {
    Numbers { presses: report.presses, packets: report.packets, x: report.x, y: report.y }
}

fn means(x: MeanWords, y: MeanWords) -> Result<Option<[(i64, u64); 2]>, String> {
    match (x.present, y.present) {
        (1, 1) => Ok(Some([x, y].map(|mean| (mean.quotient, mean.remainder)))),
        (0, 0) if [x, y].iter().all(|mean| (mean.quotient, mean.remainder) == (0, 0)) => Ok(None),
        _ => Err(format!("means {x:?} and {y:?}")),
    }
}

impl Port {
    pub fn new(seed: u64) -> Port {
        Port { rng: Rng(seed), made: BTreeMap::new(), lacked: None, damage: None }
    }

    /// Counts a call of an export, and changes its answer where that is asked for.
    pub fn note<T: Refusing>(&mut self, name: &'static str, mut answer: T) -> T {
        *self.made.entry(name).or_default() += 1;
        if self.damage.take_if(|part| *part == Part::Refusal).is_some() {
            *answer.refusal() ^= 1;
        }
        answer
    }

    /// Counts a call of an export that answers a count, and changes it where that is asked for.
    pub fn note_count(&mut self, name: &'static str, count: usize) -> usize {
        self.count(name);
        count ^ self.damage.take_if(|part| *part == Part::Refusal).is_some() as usize
    }

    pub fn count(&mut self, name: &'static str) {
        *self.made.entry(name).or_default() += 1;
    }

    fn lent(&mut self, room: usize) -> Lent {
        Lent::new(room, &mut self.rng)
    }

    /// What was written to a log or an output.
    fn written(&mut self, mut lent: Lent, count: usize) -> Result<Vec<u8>, String> {
        if self.damage.is_some_and(|part| part == Part::Byte) && !lent.bytes.is_empty() {
            let at = self.rng.below(lent.bytes.len());
            lent.bytes[at] ^= 1 << self.rng.below(8);
            self.damage = None;
        }
        lent.written(count)
    }

    /// Changes a number of a lent record where that is asked for.
    fn after(&mut self, words: &mut [u64]) {
        if self.damage.take_if(|part| *part == Part::Number).is_some() {
            let at = self.rng.below(words.len());
            words[at] ^= 1 << self.rng.below(64);
        }
    }

    /// The port of a lack: where the refusal is 2 there is one, and otherwise none.
    fn lack(&mut self, refusal: u32, port: u32) -> Result<(), String> {
        match (refusal, port) {
            (2, 0x60 | 0x64) => self.lacked = Some(port),
            (2, _) | (_, 1..) => return Err(format!("the port {port:#x} of a lack beside the refusal {refusal}")),
            _ => {}
        }
        Ok(())
    }

    fn end(refusal: u32) -> Result<u8, String> {
        match refusal {
            0..=33 => Ok(refusal as u8),
            _ => Err(format!("the refusal {refusal}")),
        }
    }

    fn call_answer(&mut self, answer: PortWords, log: Lent, value: Value, record: Record) -> Result<Answer, String> {
        self.lack(answer.refusal, answer.port)?;
        let end = Self::end(answer.refusal)?;
        if matches!(value, Value::Nothing) && answer.value != 0 {
            return Err(format!("the value {}", answer.value));
        }
        let log = self.written(log, 2 * answer.pairs)?;
        let value = if end == 0 { value } else { Value::Nothing };
        Ok(Answer::Call { end, used: answer.used, log, value, record })
    }

    fn called(&mut self, call: &Call) -> Result<Answer, String> {
        let Call { op, script, script2, room, .. } = call;
        match op {
            Op::Handle(handler, plan) => {
                let words = self.laid(handler);
                self.run(words, plan, script, script2.as_deref(), *room)
            }
            Op::Dispatch(dispatch) => self.dispatch(dispatch, script, script2.as_deref().unwrap_or_default(), *room),
            Op::Season(season) => self.season(season),
            Op::Kept(op) => self.kept(op, script, *room),
            // What it threw away is not shown.
            op if kept::keeps(op) => match self.kept(op, script, *room)? {
                Answer::Kept(Kept { answer, .. }) => Ok(*answer),
                other => Ok(other),
            },
            Op::Init(controller) => self.init(*controller, script, *room),
            Op::Mouse(MouseOp::ReadPacket | MouseOp::ReadSignedPacket, id) => {
                self.packet(op, id.unwrap_or(0), script, *room)
            }
            Op::KeyboardInit { two, rated } => self.keyboard_init(*two, *rated, script, *room),
            Op::ToAscii(keycode, flags) => {
                let character = self.note("vd_character", vd::character(*keycode as u32, *flags as u32));
                let value = match character {
                    0 => None,
                    1..=127 => Some(character as u8),
                    _ => return Err(format!("the character {character}")),
                };
                let value = Value::Character(value);
                Ok(Answer::Call { end: 0, used: 0, log: Vec::new(), value, record: Record::Nothing })
            }
            Op::ConvertSet2 => {
                let mut out = self.lent(*room);
                let answer = vd::convert_set2(script, &mut out.bytes);
                let answer = self.note("vd_convert_set2", answer);
                let bytes = self.written(out, answer.written)?;
                Ok(Answer::Bytes { end: Self::end(answer.refusal)?, used: Some(answer.used), bytes })
            }
            Op::TypeText => {
                let mut out = self.lent(*room);
                let answer = vd::type_text(script, &mut out.bytes);
                let answer = self.note("vd_type_text", answer);
                let bytes = self.written(out, answer.written)?;
                Ok(Answer::Bytes { end: Self::end(answer.refusal)?, used: None, bytes })
            }
            Op::WritePreferences(preferences) => {
                let mut out = self.lent(*room);
                let answer = vd::preferences_write(preferences_words(preferences, &mut self.rng), &mut out.bytes);
                let answer = self.note("vd_preferences_write", answer);
                let bytes = self.written(out, answer.written)?;
                Ok(Answer::Bytes { end: Self::end(answer.refusal)?, used: None, bytes })
            }
            Op::ReadPreferences(reader) => {
                let answer = match *reader {
                    1 => self.note("vd_preferences_read_1", vd::preferences_read_1(script)),
                    _ => self.note("vd_preferences_read_2", vd::preferences_read_2(script)),
                };
                Self::fields_read(*reader, answer)
            }
            Op::ApplyPreferences(preferences) => {
                let mut log = self.lent(*room);
                let words = preferences_words(preferences, &mut self.rng);
                let answer = vd::preferences_apply(words, script, &mut log.bytes);
                let answer = self.note("vd_preferences_apply", answer);
                if answer.refusal != 28 {
                    self.in_turn(words, script, answer, &log.bytes)?;
                }
                let told = (by::PREFERENCES_APPLY, argument_of(words));
                self.alike_by_bytes(told, script, answer, &log.bytes, &[])?;
                self.call_answer(answer, log, Value::Nothing, Record::Nothing)
            }
            Op::Salvage(salvage) => self.salvage(salvage, script, *room),
            op => self.device(op, script, *room),
        }
    }

    fn init(&mut self, passed: Controller, script: &[u8], room: usize) -> Result<Answer, String> {
        let mut yes = |is: bool| if is { (self.rng.next() as u32).max(1) } else { 0 };
        let Controller { init, kbd, mouse } = passed;
        let lent = ControllerWords { initialized: yes(init), keyboard: yes(kbd), mouse: yes(mouse) };
        let mut log = self.lent(room);
        let answer = vd::controller_init(lent, script, &mut log.bytes);
        let answer = self.note("vd_controller_init", answer);
        let InitializedWords { refusal, port, used, pairs, controller } = answer;
        // Where initialisation is refused its numbers are those that were lent; otherwise 0 and 1.
        let is = |number: u32| match number {
            0 => Ok(false),
            1 => Ok(true),
            _ if refusal != 0 && controller == lent => Ok(true),
            _ => Err(format!("{number} in a controller's record")),
        };
        let left = Controller {
            init: is(controller.initialized)?,
            kbd: is(controller.keyboard)?,
            mouse: is(controller.mouse)?,
        };
        let answer = PortWords { refusal, port, used, pairs, value: 0 };
        let [init, kbd, mouse] = [init, kbd, mouse].map(u64::from);
        let came = self.by_bytes(by::CONTROLLER_INIT, init | kbd << 1 | mouse << 2, script, log.bytes.len())?;
        came.is_as(answer, &log.bytes)?;
        if !matches!(refusal, 2 | 3) {
            came.gives(&[left.init, left.kbd, left.mouse].map(u64::from))?;
        }
        self.call_answer(answer, log, Value::Nothing, Record::Controller(left))
    }

    fn device(&mut self, op: &Op, script: &[u8], room: usize) -> Result<Answer, String> {
        use KeyboardOp as K;
        use MouseOp as M;
        let mut record = match op {
            Op::Mouse(_, Some(id)) => Record::Mouse(*id),
            _ => Record::Nothing,
        };
        let mut log = self.lent(room);
        let bytes = &mut log.bytes;
        let (name, mut answer) = match *op {
            Op::ControllerTest => ("vdt_controller_test", vd::controller_test(script, bytes)),
            Op::TestPort1 => ("vdt_port1_test", vd::port1_test(script, bytes)),
            Op::TestPort2 => ("vdt_port2_test", vd::port2_test(script, bytes)),
            Op::ReadConfig => ("vdt_configuration_read", vd::configuration_read(script, bytes)),
            Op::WriteConfig(byte) => ("vdt_configuration_write", vd::configuration_write(byte, bytes)),
            Op::PollingSend(set) => ("vdt_polling_send", vd::polling_send(set as u32, script, bytes)),
            Op::Keyboard(K::Reset) => ("vd_keyboard_reset", vd::keyboard_reset(script, bytes)),
            // The library takes no 0, which asks.
            Op::Keyboard(K::SetScancodeSet(0)) => {
                ("vdt_keyboard_set_scancode_set", vd::keyboard_set_any_set(0, script, bytes))
            }
            Op::Keyboard(K::SetScancodeSet(set)) => {
                ("vd_keyboard_set_scancode_set", vd::keyboard_set_scancode_set(set as u32, script, bytes))
            }
            Op::Keyboard(K::GetScancodeSet) => ("vd_keyboard_get_scancode_set", vd::keyboard_get_scancode_set(script, bytes)),
            Op::Keyboard(K::Detect) => ("vd_keyboard_detect", vd::keyboard_detect(script, bytes)),
            Op::Mouse(M::Reset, _) => ("vd_mouse_reset", vd::mouse_reset(script, bytes)),
            Op::Mouse(M::Enable, _) => ("vd_mouse_start_packets", vd::mouse_start_packets(script, bytes)),
            Op::Mouse(M::Disable, _) => ("vd_mouse_stop_packets", vd::mouse_stop_packets(script, bytes)),
            Op::Mouse(M::Id, _) => ("vd_mouse_get_identity", vd::mouse_get_identity(script, bytes)),
            Op::Mouse(M::SetId, id) => {
                ("vd_mouse_set_identity", vd::mouse_set_identity(id.unwrap_or(0) as u32, script, bytes))
            }
            Op::Mouse(M::SetSamplingRate(rate), _) => {
                ("vd_mouse_set_sampling_rate", vd::mouse_set_sampling_rate(rate as u32, script, bytes))
            }
            Op::Mouse(M::Resolution(resolution), _) => {
                ("vd_mouse_set_resolution", vd::mouse_set_resolution(resolution as u32, script, bytes))
            }
            _ => return Err("there is no export".to_string()),
        };
        answer = self.note(name, answer);
        if let Some(told) = Self::told_by_bytes(op) {
            let came = self.by_bytes(told.0, told.1, script, room)?;
            came.is_as(answer, &log.bytes)?;
            // The identity that is left is told after a refusal too.
            if !matches!(answer.refusal, 2 | 3) {
                came.gives(&[answer.value])?;
            }
        }
        let number = answer.value;
        let value = match op {
            Op::Mouse(M::SetId, _) => {
                // The value is the identity of the record that is left, after a refusal too.
                record = Record::Mouse(u8::try_from(number).map_err(|_| format!("the identity {number}"))?);
                answer.value = 0;
                Value::Nothing
            }
            _ if answer.refusal != 0 => Value::Nothing,
            Op::ReadConfig | Op::Keyboard(K::GetScancodeSet) | Op::Mouse(M::Id, _) => {
                Value::Byte(u8::try_from(number).map_err(|_| format!("the value {number}"))?)
            }
            Op::Keyboard(K::Detect) => match number {
                1..=3 => Value::Keyboard(Keyboard::ALL[number as usize - 1]),
                _ => return Err(format!("the keyboard {number}")),
            },
            _ => Value::Nothing,
        };
        self.call_answer(answer, log, value, record)
    }

    /// The operation a byte at a time, and its argument.
    fn told_by_bytes(op: &Op) -> Option<(u32, u64)> {
        use KeyboardOp as K;
        use MouseOp as M;
        Some(match *op {
            Op::Keyboard(K::Reset) => (by::KEYBOARD_RESET, 0),
            Op::Keyboard(K::SetScancodeSet(set)) if set > 0 => (by::KEYBOARD_SET_SCANCODE_SET, set.into()),
            Op::Keyboard(K::GetScancodeSet) => (by::KEYBOARD_SCANCODE_SET, 0),
            Op::Keyboard(K::Detect) => (by::KEYBOARD_DETECT, 0),
            Op::Keyboard(K::Command(byte)) => (by::KEYBOARD_COMMAND, byte.into()),
            Op::Keyboard(K::SetLed(lamps)) => (by::KEYBOARD_LAMPS, lamps.into()),
            Op::Mouse(M::Reset, _) => (by::MOUSE_RESET, 0),
            Op::Mouse(M::Enable, _) => (by::MOUSE_START_PACKETS, 0),
            Op::Mouse(M::Disable, _) => (by::MOUSE_STOP_PACKETS, 0),
            Op::Mouse(M::Id, _) => (by::MOUSE_IDENTITY, 0),
            Op::Mouse(M::SetId, id) => (by::MOUSE_SET_IDENTITY, id.unwrap_or(0).into()),
            Op::Mouse(M::SetSamplingRate(rate), _) => (by::MOUSE_SAMPLING_RATE, rate.into()),
            Op::Mouse(M::Resolution(resolution), _) => (by::MOUSE_RESOLUTION, resolution.into()),
            Op::Mouse(M::Command(byte), _) => (by::MOUSE_COMMAND, byte.into()),
            _ => return None,
        })
    }

    fn packet(&mut self, op: &Op, id: u8, script: &[u8], room: usize) -> Result<Answer, String> {
        let log = self.lent(room);
        let RustPacketWords { packet, always_one } = vd::mouse_read_rust_packet(id as u32, script);
        let answer = match op {
            Op::Mouse(MouseOp::ReadPacket, _) => self.note("vdt_mouse_read_packet", packet),
            _ => {
                let signed = self.note("vd_mouse_read_packet", vd::mouse_read_packet(id as u32, script));
                Self::signed_alike(id, &signed, &packet)?;
                let PacketWords { refusal, port, used, buttons, x, y, wheel } = signed;
                let [x, y, wheel] = [x, y, wheel].map(|n| i64::from(n) as u64);
                let told = (by::MOUSE_READ_PACKET, id.into());
                let answer = PortWords { refusal, port, used, pairs: 0, value: 0 };
                self.alike_by_bytes(told, script, answer, &[], &[buttons.into(), x, y, wheel])?;
                signed
            }
        };
        let PacketWords { refusal, port, used, .. } = answer;
        let value = Value::Packet(packet_of(&answer, always_one)?);
        self.call_answer(PortWords { refusal, port, used, pairs: 0, value: 0 }, log, value, Record::Mouse(id))
    }

    /// A packet with a signed wheel is the Rust's but for the wheel's four bits at identity 4.
    fn signed_alike(id: u8, signed: &PacketWords, rust: &PacketWords) -> Result<(), String> {
        let wheel = if id == 4 && rust.wheel > 7 { rust.wheel - 16 } else { rust.wheel };
        match *signed == (PacketWords { wheel, ..*rust }) || signed.refusal != rust.refusal {
            true => Ok(()),
            false => Err(format!("the packet {signed:?} where the Rust's wheel makes {rust:?}")),
        }
    }

    fn kept(&mut self, op: &Op, script: &[u8], room: usize) -> Result<Answer, String> {
        use KeyboardOp as K;
        use MouseOp as M;
        let mut log = self.lent(room);
        let bytes = &mut log.bytes;
        let mut value = Value::Nothing;
        let (name, answer) = match *op {
            Op::PollingReceive => {
                let ReceivedWords { answer, count, others, bytes } = vd::polling_receive(script);
                let PortWords { refusal, port, used, pairs, value: response } = answer;
                let byte = u8::try_from(response).map_err(|_| format!("the response {response}"))?;
                value = Value::Byte(byte);
                ("vdt_polling_receive", KeptWords { refusal, port, used, pairs, count, others, bytes })
            }
            Op::Keyboard(K::Command(byte)) => {
                ("vd_keyboard_command", vd::keyboard_command(byte as u32, script, bytes))
            }
            Op::Keyboard(K::DataSet(set)) => ("vdt_keyboard_data_set", vd::keyboard_data_set(set as u32, script, bytes)),
            Op::Keyboard(K::DataLed(lamps)) => {
                ("vdt_keyboard_data_lamps", vd::keyboard_data_lamps(lamps as u32, script, bytes))
            }
            Op::Keyboard(K::SetLed(lamps)) => ("vd_keyboard_set_lamps", vd::keyboard_set_lamps(lamps as u32, script, bytes)),
            Op::Mouse(M::Command(byte), _) => ("vd_mouse_command", vd::mouse_command(byte as u32, script, bytes)),
            Op::Mouse(M::DataRate(rate), _) => ("vdt_mouse_data_rate", vd::mouse_data_rate(rate as u32, script, bytes)),
            Op::Mouse(M::DataResolution(resolution), _) => {
                ("vdt_mouse_data_resolution", vd::mouse_data_resolution(resolution as u32, script, bytes))
            }
            _ => return Err(format!("{} hands back no bytes", op.name())),
        };
        let answer = self.note(name, answer);
        if let Some(told) = Self::told_by_bytes(op) {
            self.kept_by_bytes(told, script, answer, &log.bytes)?;
        }
        let (answer, bytes, others) = without_bytes(answer)?;
        let record = match *op {
            Op::Mouse(_, Some(id)) => Record::Mouse(id),
            _ => Record::Nothing,
        };
        let answer = Box::new(self.call_answer(answer, log, value, record)?);
        Ok(Answer::Kept(Kept { answer, bytes, others }))
    }

    fn keyboard_init(&mut self, two: bool, rated: bool, script: &[u8], room: usize) -> Result<Answer, String> {
        let lent = words::by_chance(&mut self.rng);
        let mut words = lent.clone();
        let mut log = self.lent(room);
        let answer = vd::keyboard_init(&mut words, 1 + two as u32, rated as u32, script, &mut log.bytes);
        let answer = self.note("vd_keyboard_init", answer);
        self.after(&mut words);
        // After 2 and 3 the numbers are as they were lent; whatever else the exchange answers, the record is fresh then.
        let fresh = Handler { two, rated, ..Handler::default() };
        let left = if matches!(answer.refusal, 2 | 3) { lent } else { words::words_of(&fresh, None) };
        if let Some(wrong) = words::first_wrong(&left, &words) {
            return Err(wrong);
        }
        self.alike_by_bytes((by::KEYBOARD_INIT, 0), script, answer, &log.bytes, &[])?;
        let record = if answer.refusal == 0 { Record::Handler(shown(&words)) } else { Record::NoHandler };
        self.call_answer(answer, log, Value::Nothing, record)
    }

    /// Numbers that stand for a record: a fresh one's are made by the export.
    fn laid(&mut self, handler: &Handler) -> Vec<u64> {
        let is_fresh = *handler == Handler { two: handler.two, rated: handler.rated, ..Handler::default() };
        if is_fresh && self.rng.once_in(2) {
            let mut words = words::by_chance(&mut self.rng);
            let refusal = vd::handler_fresh(&mut words, 1 + handler.two as u32, handler.rated as u32);
            if self.note("vd_handler_fresh", refusal) == 0 && words == words::words_of(handler, None) {
                return words;
            }
            // No record: the comparison finds it.
            return vec![u64::MAX; HANDLER_WORDS];
        }
        let plain = self.rng.once_in(4);
        words::words_of(handler, if plain { None } else { Some(&mut self.rng) })
    }

    /// A run of handler calls and takings, until one lacks a byte or finds the record malformed.
    fn run(
        &mut self,
        mut words: Vec<u64>,
        plan: &[Step],
        script: &[u8],
        script2: Option<&[u8]>,
        room: usize,
    ) -> Result<Answer, String> {
        let scripts = [script, script2.unwrap_or(script)];
        let mut at = [0, 0];
        let mut done = Vec::new();
        'run: for step in plan {
            let (times, until_used, each) = match *step {
                Step::Auto => (u64::MAX, true, false),
                Step::Each => (u64::MAX, true, true),
                Step::Handle(_, times) | Step::Take(times) => (times, false, false),
            };
            for turn in 0..times {
                if done.len() as u64 == 2 * MOST_CALLS {
                    return Err(format!("a run of more than {} calls", 2 * MOST_CALLS));
                }
                let takes = matches!(step, Step::Take(_)) || each && turn % 2 == 1;
                let ends = if takes {
                    let taken = self.take(&mut words)?;
                    let ends = matches!(taken, Done::NotTaken(_));
                    done.push(taken);
                    ends
                } else {
                    let side = if let Step::Handle(side, _) = *step { side } else { Side::First };
                    let of = if script2.is_some() { side as usize } else { 0 };
                    if until_used && at[0] == script.len() && words::waiting(&words, Side::First) == 0 {
                        break;
                    }
                    let handled = self.handle(&mut words, side, &scripts[of][at[of]..], room)?;
                    let Done::Handled { used, end, .. } = handled else { unreachable!() };
                    at[of] += used;
                    done.push(handled);
                    matches!(end, 2 | 3 | 21)
                };
                if ends {
                    break 'run;
                }
            }
        }
        Ok(Answer::Run { done, left: shown(&words) })
    }

    pub fn handle(&mut self, words: &mut [u64], side: Side, script: &[u8], room: usize) -> Result<Done, String> {
        let before = words.to_vec();
        let mut log = self.lent(room);
        let answer = vd::handle(words, side as u32 + 1, script, &mut log.bytes);
        let answer = self.note("vd_handle", answer);
        self.after(words);
        if let Some(wrong) = words::wrong_after_handling(&before, words, side, answer.refusal) {
            return Err(wrong);
        }
        let number = side as u32 + 1;
        let lent = (&before[..], log.again());
        self.handled_alike(number, lent, script, (answer, words, &log.bytes))?;
        self.handled(answer, side, log)
    }

    fn handled(&mut self, answer: HandledWords, side: Side, log: Lent) -> Result<Done, String> {
        let HandledWords { refusal, lamps, used, pairs, dropped, port } = answer;
        self.lack(refusal, port)?;
        if !matches!(lamps, 0 | 14) {
            return Err(format!("the lamps' refusal {lamps}"));
        }
        let log = self.written(log, 2 * pairs)?;
        Ok(Done::Handled { side, used, log, end: Self::end(refusal)?, lamps_failed: lamps == 14, dropped })
    }

    pub fn take(&mut self, words: &mut [u64]) -> Result<Done, String> {
        let before = words.to_vec();
        let answer = self.note("vd_take", vd::take(words));
        self.after(words);
        let TakenWords { refusal, side, keycode, action, flags } = answer;
        if let Some(wrong) = words::wrong_after_taking(&before, words, side != 0) {
            return Err(wrong);
        }
        self.taken_alike(&before, answer, words)?;
        let nothing = [side, keycode, action, flags] == [0; 4];
        let event = || {
            let bad = || format!("an event {answer:?}");
            let side = match side {
                1 => Side::First,
                2 => Side::Second,
                _ => return Err(bad()),
            };
            let released = match action {
                0 => false,
                1 => true,
                _ => return Err(bad()),
            };
            let keycode = u8::try_from(keycode).map_err(|_| bad())?;
            Ok(KeyEvent { keycode, released, flags: u16::try_from(flags).map_err(|_| bad())?, side })
        };
        match refusal {
            0 if nothing => Ok(Done::Taken(None)),
            0 => Ok(Done::Taken(Some(event()?))),
            21 if nothing => Ok(Done::NotTaken(21)),
            _ => Err(format!("a taking's answer {answer:?}")),
        }
    }

    fn dispatch(&mut self, call: &Dispatch, first: &[u8], second: &[u8], room: usize) -> Result<Answer, String> {
        let Dispatch { handler, id, last, places, script3, moves } = call;
        let fresh = Handler { two: handler.two, rated: handler.rated, ..Handler::default() };
        let mut words: Vec<u64>;
        if (*handler == fresh, *last, *places) == (true, 0, [0; 3]) {
            words = words::by_chance(&mut self.rng);
            words.resize_with(DISPATCHER_WORDS, || self.rng.next());
            let refusal = vd::dispatcher_fresh(&mut words, 1 + fresh.two as u32, fresh.rated as u32, *id as u32);
            if self.note("vd_dispatcher_fresh", refusal) != 0 {
                return Err(format!("a fresh dispatcher is refused {refusal}"));
            }
            let mut expected = words::words_of(&fresh, None);
            expected.extend([*id as u64, 0, 0, 0, 0]);
            if let Some(wrong) = words::first_wrong(&expected, &words) {
                return Err(wrong);
            }
        } else {
            words = self.laid(handler);
            words.extend([*id as u64, places[0], places[1], places[2], *last as u64]);
        }
        let mut made = Vec::new();
        for one in moves {
            match *one {
                Move::Take => made.push(Made::Key(self.take(&mut words[..HANDLER_WORDS])?)),
                Move::Steps(count) => {
                    for _ in 0..count {
                        made.push(self.step(&mut words, [first, second, script3], room)?);
                    }
                }
            }
        }
        let left = shown(&words[..HANDLER_WORDS]);
        let last = words[words::LAST];
        if last > 3 {
            return Err(format!("{last} was served last"));
        }
        let (last, places) = (last as u8, [0, 1, 2].map(|i| words[words::AT + i]));
        Ok(Answer::Dispatched(Dispatched { made, last, places, left }))
    }

    fn step(&mut self, words: &mut [u64], scripts: [&[u8]; 3], room: usize) -> Result<Made, String> {
        let before = words.to_vec();
        let mut log = self.lent(room);
        let [first, second, third] = scripts;
        let answer = vd::dispatcher_step(words, first, second, third, &mut log.bytes);
        let answer = self.note("vd_dispatcher_step", answer);
        self.after(words);
        let StepWords { refusal, source, call, packet } = answer;
        let (no_call, no_packet) = (HandledWords::zero(), PacketWords::zero());
        let bad = || format!("a step's answer {answer:?}");
        let wrong = match source {
            1 | 2 => {
                let side = if source == 1 { Side::First } else { Side::Second };
                words::wrong_after_handling(&before[..HANDLER_WORDS], &words[..HANDLER_WORDS], side, call.refusal)
            }
            _ => words::first_wrong(&before[..HANDLER_WORDS], &words[..HANDLER_WORDS]),
        };
        // The identity stays, and so does the place of every source that was not served; the answer's `last=` and `at=` tell the others.
        let mut expected = before.clone();
        if let 1..=3 = source {
            let at = words::AT + source as usize - 1;
            expected[at] = words[at];
            expected[words::LAST] = words[words::LAST];
        }
        let wrong = wrong.or_else(|| words::first_wrong(&expected[HANDLER_WORDS..], &words[HANDLER_WORDS..]));
        if let Some(wrong) = wrong {
            return Err(wrong);
        }
        match source {
            0 if (refusal, call, packet) == (0, no_call, no_packet) => {
                self.written(log, 0)?;
                Ok(Made::Idle)
            }
            1 | 2 if refusal == call.refusal && packet == no_packet => {
                let side = if source == 1 { Side::First } else { Side::Second };
                Ok(Made::Key(self.handled(call, side, log)?))
            }
            3 if refusal == packet.refusal && call == no_call => {
                self.written(log, 0)?;
                self.lack(packet.refusal, packet.port)?;
                let (id, at) = (before[words::IDENTITY] as u8, before[words::AT + 2]);
                let unread = &third[third.len().min(at.try_into().unwrap_or(usize::MAX))..];
                let rust = vd::mouse_read_rust_packet(id as u32, unread);
                Self::signed_alike(id, &packet, &rust.packet)?;
                let one = packet_of(&packet, rust.always_one)?;
                Ok(Made::Packet { end: Self::end(refusal)?, used: packet.used, packet: one })
            }
            _ => Err(bad()),
        }
    }

    fn season(&mut self, season: &Season) -> Result<Answer, String> {
        let Season { from, sessions, widens, .. } = season;
        let is_narrow = season.width.most == u32::MAX as u64;
        let is_empty = *from == Numbers { presses: [0; KEYS], packets: 0, x: 0, y: 0 };
        let mut ends = Vec::new();
        let (mut short, mut wide) = (narrow(from), long(from));
        if is_empty && is_narrow {
            short = vd::report_empty();
            self.count("vd_report_empty");
        } else if is_empty {
            wide = vd::long_report_empty();
            self.count("vd_long_report_empty");
        }
        for session in sessions {
            let mut events = Vec::new();
            for event in &session.events {
                let code = self.note("vd_event_code", vd::event_code(event.keycode as u32, event.released as u32));
                events.push(u8::try_from(code).map_err(|_| format!("the event's byte {code}"))?);
                // A byte that is no press counts nothing.
                if self.rng.once_in(4) {
                    events.push((KEYS + self.rng.below(256 - KEYS)) as u8);
                }
            }
            let refusal = if is_narrow {
                let added = vd::report_add(short, session.id as u32, &events, &session.mouse);
                let added = self.note("vd_report_add", added);
                short = added.report;
                added.refusal
            } else {
                let added = vd::long_report_add(wide, session.id as u32, &events, &session.mouse);
                let added = self.note("vd_long_report_add", added);
                wide = added.report;
                added.refusal
            };
            ends.push(Self::end(refusal)?);
        }
        if *widens {
            wide = vd::report_widen(short);
            self.count("vd_report_widen");
        }
        let (report, means) = if is_narrow && !widens {
            self.count("vd_report_mean_x");
            self.count("vd_report_mean_y");
            (of_narrow(&short), means(vd::report_mean_x(short), vd::report_mean_y(short))?)
        } else {
            self.count("vd_long_report_mean_x");
            self.count("vd_long_report_mean_y");
            (of_long(&wide), means(vd::long_report_mean_x(wide), vd::long_report_mean_y(wide))?)
        };
        let mut reported = Reported { ends, report, means, widened: *widens };
        if self.damage.take_if(|part| *part != Part::Refusal || sessions.is_empty()).is_some() {
            reported.report.packets ^= 1;
        }
        Ok(Answer::Reported(reported))
    }

    fn salvage(&mut self, salvage: &Salvage, script: &[u8], room: usize) -> Result<Answer, String> {
        let mut packets = self.lent(room);
        let before: Vec<u64> = (0..salvage.places).map(|_| self.rng.next()).collect();
        let mut positions = before.clone();
        let answer = vd::salvage(salvage.id as u32, script, &mut packets.bytes, &mut positions);
        let answer = self.note("vd_salvage", answer);
        if answer.dropped > positions.len() || positions[answer.dropped..] != before[answer.dropped..] {
            return Err("a position that was not written has changed".to_string());
        }
        positions.truncate(answer.dropped);
        let packets = self.written(packets, answer.packet_bytes)?;
        Ok(Answer::Salvaged(Salvaged { end: Self::end(answer.refusal)?, used: answer.used, packets, positions }))
    }

    fn fields_read(reader: u8, answer: PreferencesReadWords) -> Result<Answer, String> {
        let PreferencesReadWords { refusal, preferences } = answer;
        let end = Self::end(refusal)?;
        let PreferencesWords { version, set, rate, resolution, lamps, repeat } = preferences;
        let four = vec![set, rate, resolution, lamps];
        let fields = match (end, version, repeat) {
            (0, 1, 0) => four,
            (0, 2, _) if reader == 2 => [four, vec![repeat]].concat(),
            (1.., 0, 0) if four == [0; 4] => Vec::new(),
            _ => return Err(format!("preferences {answer:?}")),
        };
        Ok(Answer::Fields(FieldsRead { end, fields }))
    }

    /// Preferences applied are the exports of their fields one after the other, whose ports are compared with the Rust's.
    fn in_turn(
        &mut self,
        words: PreferencesWords,
        script: &[u8],
        applied: PortWords,
        log: &[u8],
    ) -> Result<(), String> {
        let PreferencesWords { version, set, rate, resolution, lamps, repeat } = words;
        let (mut used, mut pairs, mut last) = (0, 0, (0, 0));
        let mut own = vec![0; log.len()];
        for field in 0..if version == 1 { 4 } else { 5 } {
            let (script, log) = (&script[used..], &mut own[2 * pairs..]);
            let answer = match field {
                0 => vd::keyboard_set_scancode_set(set, script, log),
                1 => vd::mouse_set_sampling_rate(rate, script, log),
                2 => vd::mouse_set_resolution(resolution, script, log),
                3 => {
                    let KeptWords { refusal, port, used, pairs, .. } = vd::keyboard_set_lamps(lamps, script, log);
                    PortWords { refusal, port, used, pairs, value: 0 }
                }
                _ => vd::keyboard_set_repeat(repeat, script, log),
            };
            used += answer.used;
            pairs += answer.pairs;
            last = (answer.refusal, answer.port);
            if answer.refusal != 0 {
                break;
            }
        }
        let (refusal, port) = last;
        match applied == (PortWords { refusal, port, used, pairs, value: 0 }) && own[..2 * pairs] == log[..2 * pairs] {
            true => Ok(()),
            false => Err(format!("the fields one by one come to {refusal}, {used} and {pairs}, not to {applied:?}")),
        }
    }
}

impl Answerer for Port {
    fn name(&self) -> &'static str {
        "the port"
    }

    fn ask(&mut self, call: &Call) -> Result<Answer, String> {
        self.lacked = None;
        for _ in 1..call.repeat {
            self.called(call)?;
        }
        self.called(call)
    }
}
