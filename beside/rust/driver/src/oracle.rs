//! The Rust's answer to a call: its records are set, its function is called over the ports' stand-in, and what it
//! answers and leaves is told.

use crate::answer::*;
use crate::call::*;
use crate::kept::{keeping, Kept};
use crate::plain;
use event_types::Event;
use keycodes_ascii::{KeyAction, KeyboardModifiers as Flags, Keycode};
use port_io::{wire, Device, Lack};
use ps2::*;
use std::cell::RefCell;
use std::hint::black_box;
use std::panic::{catch_unwind, resume_unwind, AssertUnwindSafe};
use std::rc::Rc;

/// Document 01's number for each text with which the Rust fails.
const NUMBERS: [(&str, u8); 23] = [
    ("The PS/2 Controller has already been initialized once.", 1),
    ("polling_send timeout value exceeded", 4),
    ("polling_receive timeout value exceeded", 5),
    ("failed self-test on reset", 6),
    ("keyboard doesn't support the command or there has been a hardware failure", 7),
    ("mouse doesn't support the command or there has been a hardware failure", 7),
    ("failed PS/2 controller test", 8),
    ("failed PS/2 port test", 9),
    ("failed both PS/2 port tests, terminating PS/2 controller driver", 9),
    ("failed to reset keyboard", 10),
    ("failed to reset mouse", 10),
    ("failed to get scancode set: timeout exceeded", 11),
    ("failed to get mouse id: bad response", 11),
    ("unrecognized keyboard type", 12),
    ("failed to set the keyboard led", 14),
    ("failed to set the mouse sampling rate", 15),
    ("failed to set the mouse resolution", 15),
    ("failed to disable mouse streaming", 16),
    ("failed to enable mouse streaming", 17),
    ("Failed to detect the PS/2 keyboard type", 18),
    // its one panic
    ("assertion failed: id == MouseId::Zero", 13),
    // as the interrupt handler logs them
    ("ps2_keyboard_handler: error handling PS2_PORT input: \"unknown keyboard scancode\"", 19),
    ("ps2_keyboard_handler: error handling PS2_PORT input: \"keyboard input queue is full\"", 20),
];

fn number_of(text: &str) -> Option<u8> {
    NUMBERS.iter().find(|(known, _)| *known == text).map(|&(_, number)| number)
}

/// The Rust's flags in the order of document 01's numbers.
const FLAGS: [Flags; 10] = [
    Flags::SHIFT_LEFT,
    Flags::SHIFT_RIGHT,
    Flags::CONTROL_LEFT,
    Flags::CONTROL_RIGHT,
    Flags::ALT,
    Flags::SUPER_KEY_LEFT,
    Flags::SUPER_KEY_RIGHT,
    Flags::CAPS_LOCK,
    Flags::NUM_LOCK,
    Flags::SCROLL_LOCK,
];

/// The flags of a number that has document 01's bits.
pub fn to_flags(number: u16) -> Flags {
    let mut flags = Flags::new();
    for (bit, flag) in FLAGS.into_iter().enumerate() {
        if number >> bit & 1 == 1 {
            flags.insert(flag);
        }
    }
    flags
}

fn from_flags(flags: Flags) -> u16 {
    FLAGS.iter().enumerate().map(|(bit, flag)| (flags.intersects(*flag) as u16) << bit).sum()
}

impl KeyEvent {
    fn to_rust(self) -> Event {
        let action = if self.released { KeyAction::Released } else { KeyAction::Pressed };
        let keycode = self.keycode.try_into().unwrap();
        Event::new_keyboard_event(keycodes_ascii::KeyEvent::new(keycode, action, to_flags(self.flags)))
    }

    fn of_rust(Event(event): &Event) -> KeyEvent {
        KeyEvent {
            keycode: event.keycode as u8,
            released: event.action == KeyAction::Released,
            flags: from_flags(event.modifiers),
            side: Side::First,
        }
    }
}

/// Gives a script byte by byte, and notes the bytes that reads of the data port were given.
struct Noting {
    script: std::vec::IntoIter<u8>,
    data: Rc<RefCell<Vec<u8>>>,
}

impl Device for Noting {
    fn read(&mut self, port: u16, script: &mut Vec<u8>) {
        let byte = self.script.next();
        script.extend(byte);
        if port == 0x60 {
            self.data.borrow_mut().extend(byte);
        }
    }

    fn write(&mut self, _port: u16, _value: u8) {}
}

/// Those bytes that receiving throws away.
fn unlisted(data: impl IntoIterator<Item = u8>) -> Vec<u8> {
    data.into_iter().filter(|&byte| DeviceToHostResponse::try_from(byte).is_err()).collect()
}

/// How a call of the Rust ended: 0, or the number of its refusal.
pub type End = u8;

/// Runs a call of the Rust on the script from its start. A lack ends it with 2 or 3, a panic with its number.
fn run<T>(room: usize, call: impl FnOnce() -> Result<T, &'static str>) -> (End, Option<T>) {
    wire().begin(0, room, true);
    match catch_unwind(AssertUnwindSafe(call)) {
        Ok(Ok(value)) => (0, Some(value)),
        Ok(Err(text)) => (number_of(text).unwrap_or_else(|| panic!("a text without a number: {text}")), None),
        Err(payload) if payload.is::<Lack>() => (wire().lack, None),
        Err(payload) => match payload.downcast_ref::<&str>().and_then(|text| number_of(text)) {
            Some(number) => (number, None),
            None => resume_unwind(payload),
        },
    }
}

fn byte_value((end, byte): (End, Option<u8>)) -> (End, Value) {
    (end, byte.map_or(Value::Nothing, Value::Byte))
}

fn keyboard_value(found: KeyboardType) -> Value {
    Value::Keyboard(match found {
        KeyboardType::MF2Keyboard => Keyboard::Plain,
        KeyboardType::MF2KeyboardWithPSControllerTranslator => Keyboard::Translated,
        KeyboardType::AncientATKeyboard => Keyboard::Ancient,
    })
}

fn packet_value(p: MousePacket) -> Value {
    let buttons =
        [p.button_left(), p.button_right(), p.button_middle(), p.always_one() == 1, p.button_4(), p.button_5()];
    Value::Packet(Packet {
        bits: buttons,
        movements: [p.x_movement().into(), p.y_movement().into(), p.scroll_movement().into()],
    })
}

/// Whether a call of a run ended for the lack of a byte.
fn lacks(done: &Done) -> bool {
    matches!(done, Done::Handled { end: 2 | 3, .. })
}

/// A keyboard that answers every step of keyboard initialisation.
const GOOD_KEYBOARD: [u8; 27] =
    [0, 1, 0xFA, 0, 1, 0xFA, 1, 0xAB, 1, 0x83, 0, 1, 0xFA, 0, 1, 0xFA, 0, 1, 0xFA, 0, 1, 0xFA, 0, 1, 0xFA, 1, 1];

/// What is asked without an exchange.
#[derive(Clone, Copy, Debug)]
pub enum Glance {
    KeyboardWaits,
    MouseWaits,
    Scancode,
}

/// The Rust, one to a process: its records are statics.
pub struct Oracle {
    /// The controller through which devices are called: only its ports count.
    controller: &'static PS2Controller,
    /// The queue that the handler was given.
    queue: mpmc::Queue<Event>,
    /// Whether the handler is registered: a keyboard initialisation that fails leaves none.
    registered: bool,
}

impl Oracle {
    pub fn new() -> Oracle {
        // The one panic of the Rust is an answer here, and says nothing.
        std::panic::set_hook(Box::new(|info| {
            if info.payload().downcast_ref::<&str>().and_then(|text| number_of(text)).is_none() {
                eprintln!("{info}");
            }
        }));
        let controller = Box::leak(Box::new(reach::controller(true, true)));
        Oracle { controller, queue: mpmc::Queue::new(), registered: false }
    }

    /// The answer to a call.
    pub fn answer(&mut self, call: &Call) -> Answer {
        match &call.op {
            Op::Handle(handler, plan) => return self.answer_handle(call, handler, plan),
            Op::ToAscii(keycode, flags) => return answer_to_ascii(*keycode, *flags, call.repeat),
            Op::Kept(op) => return self.answer_kept(op, call),
            op if op.takes_bytes() => return plain::answer(call),
            _ => {}
        }
        let is_init = matches!(call.op, Op::KeyboardInit { .. });
        if is_init {
            self.set(&Handler::default());
        }
        wire().script.clone_from(&call.script);
        let mut done = self.port_operation(&call.op, call.room);
        for _ in 1..call.repeat {
            done = self.port_operation(&call.op, call.room);
        }
        let (end, value, record) = done;
        let (used, log) = (wire().at, wire().log.clone());
        let record = if is_init && end == 0 { Record::Handler(self.left()) } else { record };
        Answer::Call { end, used, log, value, record }
    }

    /// A call with the bytes that it threw away. The Rust hands none back; those that it read from the data port and that are no
    /// response are told here.
    fn answer_kept(&mut self, op: &Op, call: &Call) -> Answer {
        let data = Rc::new(RefCell::new(Vec::new()));
        wire().script.clear();
        wire().device = Some(Box::new(Noting { script: call.script.clone().into_iter(), data: data.clone() }));
        let (end, value, record) = self.port_operation(op, call.room);
        wire().device = None;
        let (used, log) = (wire().at, wire().log.clone());
        // After 2 and 3 nothing is handed back.
        let thrown = if matches!(end, 2 | 3) { Vec::new() } else { unlisted(data.take()) };
        let (bytes, others) = keeping(thrown);
        Answer::Kept(Kept { answer: Box::new(Answer::Call { end, used, log, value, record }), bytes, others })
    }

    /// The port of the read that lacked a byte, after a call that ended so.
    pub fn port_lacked(&self) -> u16 {
        wire().lacked
    }

    /// A look at the status, or a read of a scancode, on a script: how it ended, the bytes used, and the value.
    pub fn glance(&mut self, what: Glance, script: &[u8]) -> (End, usize, u8) {
        wire().script = script.to_vec();
        let c = self.controller;
        let (end, value) = match what {
            Glance::KeyboardWaits => run(0, || Ok(reach::keyboard_waits(&PS2Keyboard::new(c)) as u8)),
            Glance::MouseWaits => run(0, || Ok(reach::mouse(c, 0.try_into().unwrap()).is_output_buffer_full() as u8)),
            Glance::Scancode => run(0, || Ok(PS2Keyboard::new(c).read_scancode())),
        };
        (end, wire().at, value.unwrap_or(0))
    }

    /// Makes a call so many times for measuring, with nothing between two calls but what sets state, script and log again. The
    /// script and the room must suffice.
    pub fn repeat(&mut self, call: &Call, times: u64) {
        let c = self.controller;
        let again = || wire().begin(0, call.room, false);
        wire().script.clone_from(&call.script);
        again();
        match call.op {
            Op::Init(state) => (0..times).for_each(|_| {
                reach::set_controller(state.init.then(|| reach::controller(state.kbd, state.mouse)));
                again();
                let _ = black_box(ps2::init());
            }),
            Op::ReadConfig => (0..times).for_each(|_| {
                again();
                black_box(c.read_config());
            }),
            Op::Keyboard(KeyboardOp::Command(byte)) => {
                let (keyboard, command) = (PS2Keyboard::new(c), keyboard_command(byte));
                (0..times).for_each(|_| {
                    again();
                    let byte = HostToKeyboardCommandOrData::KeyboardCommand(black_box(command.clone()));
                    let _ = black_box(reach::command_to_keyboard(&keyboard, byte));
                })
            }
            Op::Keyboard(KeyboardOp::SetLed(bits)) => {
                let keyboard = PS2Keyboard::new(c);
                (0..times).for_each(|_| {
                    again();
                    let _ = black_box(keyboard.set_keyboard_led(black_box(leds(bits))));
                })
            }
            Op::ToAscii(keycode, flags) => drop(answer_to_ascii(keycode, flags, times)),
            ref op if op.takes_bytes() => plain::repeat(call, times),
            _ => unreachable!("{} is not measured", call.op.name()),
        }
        assert_eq!(wire().lack, 0, "the script and the log suffice");
    }

    /// Has a device make up the script of an operation while the Rust reads it. Gives the script and the number of
    /// bytes logged, of a handler line by the call that logged most.
    pub fn record(&mut self, op: &Op, device: Box<dyn Device>) -> (Vec<u8>, usize) {
        const AMPLE: usize = 1000;
        match op {
            Op::Handle(handler, _) => self.set(handler),
            Op::KeyboardInit { .. } => self.set(&Handler::default()),
            Op::ToAscii(..) => return (Vec::new(), 0),
            op if op.takes_bytes() => return (Vec::new(), 0),
            _ => {}
        }
        wire().script.clear();
        wire().device = Some(device);
        let logged = if let Op::Handle(_, plan) = op {
            let mut done = Vec::new();
            self.steps(plan, AMPLE, usize::MAX, &mut done);
            let logs = done.iter().map(|d| if let Done::Handled { log, .. } = d { log.len() } else { 0 });
            logs.max().unwrap_or(0)
        } else {
            self.port_operation(op, AMPLE);
            wire().log.len()
        };
        wire().device = None;
        wire().script.truncate(wire().at);
        (std::mem::take(&mut wire().script), logged)
    }

    fn port_operation(&mut self, op: &Op, room: usize) -> (End, Value, Record) {
        let c = self.controller;
        let no_value = |(end, _)| (end, Value::Nothing);
        let mut record = Record::Nothing;
        let (end, value) = match *op {
            Op::Init(state) => {
                reach::set_controller(state.init.then(|| reach::controller(state.kbd, state.mouse)));
                let (end, _) = run(room, || ps2::init());
                // The Rust has no record of a controller that is not initialised.
                let left = reach::attached().map(|(kbd, mouse)| Controller { init: true, kbd, mouse });
                record = Record::Controller(left.unwrap_or(state));
                (end, Value::Nothing)
            }
            Op::ControllerTest => no_value(run(room, || c.test())),
            Op::TestPort1 => no_value(run(room, || c.test_port1())),
            Op::TestPort2 => no_value(run(room, || c.test_port2())),
            Op::ReadConfig => byte_value(run(room, || Ok(c.read_config().into_bytes()[0]))),
            Op::WriteConfig(config) => {
                no_value(run(room, || Ok(c.write_config(ControllerConfigurationByte::from_bytes([config])))))
            }
            Op::PollingSend(set) => no_value(run(room, || reach::polling_send(c, set.try_into().unwrap()))),
            Op::PollingReceive => byte_value(run(room, || reach::polling_receive(c))),
            Op::Keyboard(op) => keyboard_operation(&PS2Keyboard::new(c), op, room),
            Op::Mouse(op, id) => {
                let passed = id.unwrap_or(0);
                let mut mouse = reach::mouse(c, passed.try_into().unwrap());
                let (end, value) = mouse_operation(&mut mouse, op, room);
                if id.is_some() || matches!(op, MouseOp::SetId | MouseOp::ReadPacket) {
                    // After 2 and 3 the record is as passed in: no port of the Rust runs out, so we put it back.
                    record = Record::Mouse(if matches!(end, 2 | 3) { passed } else { reach::identity(&mouse) });
                }
                (end, value)
            }
            Op::KeyboardInit { .. } => {
                keyboard::reach::forget();
                let (end, _) = run(room, || keyboard::init(PS2Keyboard::new(c), self.queue.clone()));
                self.registered = end == 0;
                record = Record::NoHandler;
                (end, Value::Nothing)
            }
            Op::Handle(..)
            | Op::ToAscii(..)
            | Op::ConvertSet2
            | Op::TypeText
            | Op::Salvage(_)
            | Op::Season(_)
            | Op::Dispatch(_)
            | Op::ApplyPreferences(_)
            | Op::WritePreferences(_)
            | Op::ReadPreferences(_)
            | Op::Kept(_) => unreachable!(),
        };
        (end, value, record)
    }

    /// The run as far as its calls begin with none waiting in the port, where bytes come to wait: up to the first call whose lamp
    /// exchange threw some away.
    pub fn before_waiting(&mut self, call: &Call, answer: &Answer) -> Option<Call> {
        let (Op::Handle(handler, _), Answer::Run { done, .. }) = (&call.op, answer) else { return None };
        let mut at = 0;
        let caught = done.iter().position(|d| match d {
            Done::Handled { used, log, .. } if !log.is_empty() => {
                let exchange = &call.script[at + 1..at + used];
                at += used;
                self.throws_away(exchange, call.room)
            }
            Done::Handled { used, .. } => {
                at += used;
                false
            }
            _ => false,
        })?;
        let plan = done[..=caught].iter().map(|d| match d {
            Done::Handled { side, .. } => Step::Handle(*side, 1),
            _ => Step::Take(1),
        });
        let op = Op::Handle(handler.clone(), plan.collect());
        Some(Call { op, ..call.clone() })
    }

    /// Whether a lamp exchange on this script throws bytes away: whichever lamps are set.
    fn throws_away(&mut self, script: &[u8], room: usize) -> bool {
        let op = Op::Keyboard(KeyboardOp::SetLed(0));
        let call = Call { op: op.clone(), script: script.to_vec(), script2: None, room, repeat: 1 };
        matches!(self.answer_kept(&op, &call), Answer::Kept(Kept { bytes, .. }) if !bytes.is_empty())
    }

    fn answer_handle(&mut self, call: &Call, handler: &Handler, plan: &[Step]) -> Answer {
        let mut done = Vec::new();
        for _ in 0..call.repeat.max(1) {
            done.clear();
            self.set(handler);
            wire().script.clone_from(&call.script);
            self.steps(plan, call.room, usize::MAX, &mut done);
        }
        if done.last().is_some_and(lacks) {
            // After 2 and 3 the record is as passed in to that call: we make the calls before it once more.
            self.set(handler);
            wire().script.clone_from(&call.script);
            self.steps(plan, call.room, done.len() - 1, &mut Vec::new());
        }

        Answer::Run { done, left: self.left() }
    }

    /// Makes a plan's calls on the script from its start, at most `limit`, until one lacks a byte.
    pub fn steps(&mut self, plan: &[Step], room: usize, limit: usize, done: &mut Vec<Done>) {
        wire().at = 0;
        for step in plan {
            let (mut left, each) = match *step {
                Step::Auto => (u64::MAX, false),
                Step::Each => (u64::MAX, true),
                Step::Handle(_, times) | Step::Take(times) => (times, false),
            };
            while left > 0 {
                if done.len() == limit || done.last().is_some_and(lacks) {
                    return;
                }
                let until_used = matches!(step, Step::Auto | Step::Each);
                let taking = matches!(step, Step::Take(_)) || each && matches!(done.last(), Some(Done::Handled { .. }));
                if until_used && !taking && wire().at >= wire().script.len() {
                    break;
                }
                done.push(if taking { self.take() } else { self.handle(wire().at, room) });
                left -= 1;
            }
        }
    }

    /// A handler call on the script from a place on.
    pub fn handle(&mut self, at: usize, room: usize) -> Done {
        let (end, lamps_failed) = self.enter(at, room);
        let (side, used, log) = (Side::First, wire().at - at, wire().log.clone());
        Done::Handled { side, used, log, end, lamps_failed, dropped: 0 }
    }

    /// Enters the handler: how the call ended, and whether a lamp exchange failed.
    pub fn enter(&mut self, at: usize, room: usize) -> (End, bool) {
        wire().begin(at, room, false);
        log::errors().clear();
        interrupts::raise();
        let (mut end, mut lamps_failed) = (0, false);
        for text in log::errors().iter() {
            match number_of(text) {
                Some(14) => lamps_failed = true,
                Some(number) => end = number,
                None => {}
            }
        }
        if wire().lack != 0 {
            (end, lamps_failed) = (wire().lack, false);
        }
        (end, lamps_failed)
    }

    /// The same on a script, with the bytes that the lamp exchange threw away: those behind the scancode.
    pub fn enter_noting(&mut self, script: Vec<u8>, room: usize) -> (End, Vec<u8>) {
        let data = Rc::new(RefCell::new(Vec::new()));
        wire().script.clear();
        wire().device = Some(Box::new(Noting { script: script.into_iter(), data: data.clone() }));
        let (end, _) = self.enter(0, room);
        wire().device = None;
        (end, unlisted(data.take().into_iter().skip(1)))
    }

    /// A taking from the queue.
    fn take(&mut self) -> Done {
        Done::Taken(self.queue.pop().map(|event| KeyEvent::of_rust(&event)))
    }

    /// A taking from the queue, with the event's character.
    pub fn take_with_character(&mut self) -> Option<(KeyEvent, Option<char>)> {
        let event = self.queue.pop()?;
        Some((KeyEvent::of_rust(&event), event.0.keycode.to_ascii(event.0.modifiers)))
    }

    /// Makes the handler's record this one. The prefix can't be reached: a byte E0 sets it, 00 clears it.
    pub fn set(&mut self, handler: &Handler) {
        if !self.registered {
            wire().script = GOOD_KEYBOARD.to_vec();
            let (end, ..) = self.port_operation(&Op::KeyboardInit { two: false, rated: false }, 64);
            assert!(end == 0);
        }
        self.feed(if handler.first.ext { 0xE0 } else { 0x00 });
        *keyboard::reach::modifiers() = to_flags(handler.first.flags);
        self.queue.clear();
        for event in &handler.queue {
            self.queue.push(event.to_rust()).unwrap();
        }
    }

    /// The handler's record. The prefix shows in what a press of Control does, so the record is gone afterwards.
    fn left(&mut self) -> Handler {
        let flags = from_flags(*keyboard::reach::modifiers());
        let mut queue = Vec::new();
        self.queue.for_each(|event| queue.push(KeyEvent::of_rust(event)));

        *keyboard::reach::modifiers() = Flags::new();
        self.feed(0x1D);
        let ext = keyboard::reach::modifiers().intersects(Flags::CONTROL_RIGHT);
        Handler { first: Remembered { ext, flags, ..Remembered::default() }, queue, ..Handler::default() }
    }

    /// A handler call on one byte.
    fn feed(&mut self, byte: u8) {
        wire().script.clear();
        wire().script.push(byte);
        self.handle(0, 0);
    }
}

fn answer_to_ascii(keycode: u8, flags: u16, repeat: u64) -> Answer {
    let (keycode, flags): (Keycode, Flags) = (keycode.try_into().unwrap(), to_flags(flags));
    let mut character = keycode.to_ascii(flags);
    for _ in 1..repeat {
        character = black_box(black_box(keycode).to_ascii(black_box(flags)));
    }
    let number = character.map(|character| u8::try_from(character).expect("an ASCII character"));
    Answer::Call { end: 0, used: 0, log: Vec::new(), value: Value::Character(number), record: Record::Nothing }
}

fn leds(bits: u8) -> LEDState {
    LEDState::new().with_scroll_lock(bits & 1 != 0).with_number_lock(bits & 2 != 0).with_caps_lock(bits & 4 != 0)
}

fn keyboard_command(byte: u8) -> HostToKeyboardCommand {
    reach::keyboard_commands().into_iter().find(|c| c.clone() as u8 == byte).unwrap()
}

fn keyboard_operation(keyboard: &PS2Keyboard, op: KeyboardOp, room: usize) -> (End, Value) {
    use HostToKeyboardCommandOrData as Byte;
    let command = |byte: Byte| run(room, || reach::command_to_keyboard(keyboard, byte));
    let (end, _) = match op {
        KeyboardOp::GetScancodeSet => return byte_value(run(room, || reach::get_keyboard_scancode_set(keyboard))),
        KeyboardOp::Detect => {
            let (end, found) = run(room, || keyboard.keyboard_detect());
            return (end, found.map_or(Value::Nothing, keyboard_value));
        }
        KeyboardOp::Command(byte) => command(Byte::KeyboardCommand(keyboard_command(byte))),
        KeyboardOp::DataSet(set) => command(Byte::ScancodeSet(set.try_into().unwrap())),
        KeyboardOp::DataLed(bits) => command(Byte::LEDState(leds(bits))),
        KeyboardOp::Reset => run(room, || keyboard.reset()),
        KeyboardOp::SetLed(bits) => run(room, || keyboard.set_keyboard_led(leds(bits))),
        KeyboardOp::SetScancodeSet(set) => run(room, || keyboard.set_keyboard_scancode_set(set.try_into().unwrap())),
    };
    (end, Value::Nothing)
}

fn rate(number: u8) -> MouseSampleRate {
    use MouseSampleRate::*;
    [_10, _20, _40, _60, _80, _100, _200].into_iter().find(|rate| rate.clone() as u8 == number).unwrap()
}

fn resolution(number: u8) -> MouseResolution {
    use MouseResolution::*;
    [Count1PerMm, Count2PerMm, Count4PerMm, Count8PerMm].into_iter().find(|r| r.clone() as u8 == number).unwrap()
}

fn mouse_operation(mouse: &mut PS2Mouse, op: MouseOp, room: usize) -> (End, Value) {
    use HostToMouseCommandOrData as Byte;
    let command = |mouse: &PS2Mouse, byte: Byte| run(room, || reach::command_to_mouse(mouse, byte));
    let (end, _) = match op {
        MouseOp::Id => return byte_value(run(room, || reach::mouse_id(mouse))),
        MouseOp::ReadPacket => {
            let (end, packet) = run(room, || Ok(mouse.read_mouse_packet()));
            return (end, packet.map_or(Value::Nothing, packet_value));
        }
        MouseOp::Command(byte) => {
            let known = reach::mouse_commands().into_iter().find(|c| c.clone() as u8 == byte);
            command(mouse, Byte::MouseCommand(known.unwrap()))
        }
        MouseOp::DataRate(number) => command(mouse, Byte::SampleRate(rate(number))),
        MouseOp::DataResolution(number) => command(mouse, Byte::MouseResolution(resolution(number))),
        MouseOp::Reset => run(room, || mouse.reset()),
        MouseOp::Enable => run(room, || reach::enable_mouse_packet_streaming(mouse)),
        MouseOp::Disable => run(room, || reach::disable_mouse_packet_streaming(mouse)),
        MouseOp::SetSamplingRate(number) => run(room, || reach::set_mouse_sampling_rate(mouse, rate(number))),
        MouseOp::Resolution(number) => run(room, || reach::mouse_resolution(mouse, resolution(number))),
        MouseOp::SetId => run(room, || mouse.set_mouse_id()),
        MouseOp::ReadSignedPacket => unreachable!("the Rust has no such read"),
    };
    (end, Value::Nothing)
}
