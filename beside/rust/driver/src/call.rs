//! A call line of the trace format (tests/traces/README.md), read and written.

use crate::dispatch::{self, Dispatch};
use crate::kept;
use crate::prefs_apply::{self, Preferences};
use crate::prefs_code;
use crate::report::{self, Season};
use crate::salvage::{self, Salvage};
use std::fmt::{self, Write};

/// Why a line tells no call, and where what can't be read begins.
#[derive(Debug)]
pub struct Bad {
    /// The address of its first byte, which lies in the line.
    at: usize,
    pub why: String,
}

impl Bad {
    pub fn new(text: &str, why: impl Into<String>) -> Bad {
        Bad { at: text.as_ptr() as usize, why: why.into() }
    }

    /// Where it begins in its line, counted from 1.
    pub fn column(&self, line: &str) -> usize {
        self.at - line.as_ptr() as usize + 1
    }
}

/// What a line tells, or why it can't be read.
pub type Read<T> = Result<T, Bad>;

/// The most bytes that a part of a line can stand for, and the most events and calls: what is repeated more often than that is refused, since
/// a line's call and its answer are held whole.
pub const MOST_BYTES: usize = 1 << 26;
pub const MOST_CALLS: u64 = 1 << 22;

/// What stands in a call line.
#[derive(Clone, Debug, PartialEq)]
pub struct Call {
    pub op: Op,
    /// The script, or the input of an operation on lent bytes.
    pub script: Vec<u8>,
    /// Side 2's script, where it has one of its own.
    pub script2: Option<Vec<u8>>,
    /// Room of the log, in bytes; for a handler line the room of each call, for an operation on lent bytes the output's.
    pub room: usize,
    /// How often the call is made, each time from the same state.
    pub repeat: u64,
}

#[derive(Clone, Debug, PartialEq)]
pub enum Op {
    Init(Controller),
    ControllerTest,
    TestPort1,
    TestPort2,
    ReadConfig,
    WriteConfig(u8),
    PollingSend(u8),
    PollingReceive,
    Keyboard(KeyboardOp),
    /// A mouse operation, with the mouse's identity where the line gives one.
    Mouse(MouseOp, Option<u8>),
    /// Keyboard initialisation; its record is for two keyboards, or for one, and for rated games, or for others.
    KeyboardInit {
        two: bool,
        rated: bool,
    },
    Handle(Handler, Vec<Step>),
    ToAscii(u8, u16),
    ConvertSet2,
    TypeText,
    Salvage(Salvage),
    Dispatch(Box<Dispatch>),
    ApplyPreferences(Preferences),
    WritePreferences(Preferences),
    /// By the reader of a version.
    ReadPreferences(u8),
    Season(Season),
    /// A call whose line ends in `show=kept`.
    Kept(Box<Op>),
}

#[derive(Clone, Copy, Debug, PartialEq)]
pub enum KeyboardOp {
    Command(u8),
    DataSet(u8),
    DataLed(u8),
    Reset,
    SetLed(u8),
    SetScancodeSet(u8),
    GetScancodeSet,
    Detect,
}

#[derive(Clone, Copy, Debug, PartialEq)]
pub enum MouseOp {
    Command(u8),
    DataRate(u8),
    DataResolution(u8),
    Reset,
    Enable,
    Disable,
    SetSamplingRate(u8),
    Resolution(u8),
    Id,
    SetId,
    ReadPacket,
    ReadSignedPacket,
}

#[derive(Clone, Copy, Debug, Default, PartialEq)]
pub struct Controller {
    pub init: bool,
    pub kbd: bool,
    pub mouse: bool,
}

/// A side of a table; where there is one keyboard, it is the first's.
#[derive(Clone, Copy, Debug, Default, PartialEq)]
pub enum Side {
    #[default]
    First,
    Second,
}

/// What the handler remembers of a side's keyboard, with the flags in document 01's numbering.
#[derive(Clone, Debug, Default, PartialEq)]
pub struct Remembered {
    pub ext: bool,
    pub flags: u16,
    /// The bytes that wait, oldest first.
    pub kept: Vec<u8>,
    /// How many are said to wait, where that is more than there are places: such a record is malformed.
    pub waits: Option<u64>,
}

/// The handler's record.
#[derive(Clone, Debug, Default, PartialEq)]
pub struct Handler {
    pub first: Remembered,
    pub second: Remembered,
    /// Whether there are two keyboards.
    pub two: bool,
    /// Whether it has the tournament profile.
    pub rated: bool,
    pub queue: Vec<KeyEvent>,
    /// The place of the oldest event: of a record that is told, 0 or one that makes it malformed.
    pub start: u64,
    /// How many events are said to wait, where that is more than there are places: such a record is malformed.
    pub count: Option<u64>,
}

#[derive(Clone, Copy, Debug, PartialEq)]
pub struct KeyEvent {
    pub keycode: u8,
    pub released: bool,
    pub flags: u16,
    pub side: Side,
}

/// A part of a handler line's plan.
#[derive(Clone, Copy, Debug, PartialEq)]
pub enum Step {
    /// Handler calls until the script is used.
    Auto,
    /// A handler call and a taking in turn, until the script is used.
    Each,
    Handle(Side, u64),
    Take(u64),
}

pub const KEYBOARD_COMMANDS: [u8; 8] = [0xED, 0xF0, 0xF2, 0xF3, 0xF4, 0xF5, 0xFE, 0xFF];
pub const MOUSE_COMMANDS: [u8; 15] =
    [0xE6, 0xE8, 0xE9, 0xEA, 0xEB, 0xEC, 0xEE, 0xF0, 0xF2, 0xF3, 0xF4, 0xF5, 0xF6, 0xFE, 0xFF];
pub const RATES: [u8; 7] = [10, 20, 40, 60, 80, 100, 200];
pub const LAST_KEYCODE: u8 = 0x5D;
/// The keycodes above the last: `ControlReleased` and its like. No event has one.
pub const RELEASE_KEYCODES: [u8; 6] = [0x9D, 0xB8, 0xAA, 0xB6, 0xDB, 0xDC];
/// The flags that the Rust moves: document 01's ten.
pub const ALL_FLAGS: u16 = 0x3FF;
/// The flags of a well-formed record: with ALT_RIGHT, the eleventh.
pub const PORT_FLAGS: u16 = 0x7FF;
pub const QUEUE_PLACES: usize = 128;
/// The places for bytes that wait.
pub const WAITING_PLACES: usize = 16;
/// With two keyboards, the most events of one side that wait.
pub const SHARE: usize = 96;

/// A line that asks for no answer: empty, a comment, or an answer.
pub fn is_skipped(line: &str) -> bool {
    line.trim().is_empty() || line.starts_with('#') || line.starts_with("out=")
}

/// The fields `key=value` of a line, each at most once, in the order of their names here.
pub fn fields<'a, const N: usize>(
    words: impl Iterator<Item = &'a str>,
    name: &str,
    keys: [&str; N],
) -> Read<[Option<&'a str>; N]> {
    let mut values = [None; N];
    for word in words {
        let (key, value) = word.split_once('=').ok_or_else(|| Bad::new(word, format!("'{word}' is not key=value")))?;
        let at = keys.iter().position(|&known| known == key);
        let at = at.ok_or_else(|| Bad::new(word, format!("{name} has no field '{key}='")))?;
        if values[at].replace(value).is_some() {
            return Err(Bad::new(word, format!("the field '{key}=' comes twice")));
        }
    }
    Ok(values)
}

/// A field that an operation's line must have.
pub fn needed<'a>(name: &str, key: &str, value: Option<&'a str>) -> Read<&'a str> {
    value.ok_or_else(|| Bad::new(name, format!("the field '{key}=' is missing")))
}

pub fn parse(line: &str) -> Read<Call> {
    let mut words = line.split_ascii_whitespace().peekable();
    let name = words.next().ok_or_else(|| Bad::new(line, "an empty line"))?;
    if name == salvage::NAME {
        return salvage::parse(name, words);
    }
    if let Some(call) = report::parse(name, words.clone()) {
        return call;
    }
    if name == dispatch::NAME {
        return dispatch::parse(name, words);
    }
    let mut args = Vec::new();
    while let Some(word) = words.next_if(|word| !word.contains('=')) {
        args.push(word);
    }
    let keys = ["script", "script2", "log", "in", "room", "state", "plan", "repeat", "show", "table", "profile"];
    let [script, script2, log, input, output, state, plan, repeat, show, table, profile] = fields(words, name, keys)?;
    let op = match (parse_op(name, &args, state, plan, [table, profile])?, show) {
        (op, None) => op,
        (op, Some("kept")) if kept::keeps(&op) => Op::Kept(Box::new(op)),
        (_, Some(value)) => return Err(Bad::new(value, format!("{name} has no '{value}' to show"))),
    };
    // What an operation takes: a script and a log, or lent bytes.
    let takes = [
        ("script", script, op.takes_script()),
        ("log", log, op.takes_log()),
        ("in", input, op.takes_input()),
        ("room", output, op.takes_room()),
    ];
    for (key, value, takes) in takes {
        match (value, takes) {
            (None, true) => drop(needed(name, key, None)?),
            (Some(value), false) => return Err(Bad::new(value, format!("{name} takes no {key}"))),
            _ => {}
        }
    }
    if let (Some(value), false) = (script2, matches!(op, Op::Handle(..))) {
        return Err(Bad::new(value, format!("{name} has no second side")));
    }
    Ok(Call {
        op,
        script: script.or(input).map_or(Ok(Vec::new()), parse_script)?,
        script2: script2.map(parse_script).transpose()?,
        room: log.or(output).map_or(Ok(0), room)?,
        repeat: repeat.map_or(Ok(1), decimal)?,
    })
}

fn parse_op(
    name: &str,
    args: &[&str],
    state: Option<&str>,
    plan: Option<&str>,
    [table, profile]: [Option<&str>; 2],
) -> Read<Op> {
    let count = |n: usize| match args.len() == n {
        true => Ok(()),
        false => {
            let at = args.get(n).copied().unwrap_or(name);
            Err(Bad::new(at, format!("{name} takes {n} arguments, not {}", args.len())))
        }
    };
    // An operation's one argument: a hexadecimal byte of a list, or a decimal number.
    let one_hex = |allowed: &[u8]| -> Read<u8> {
        count(1)?;
        let byte = hex(args[0], 2)? as u8;
        if allowed.is_empty() || allowed.contains(&byte) {
            Ok(byte)
        } else {
            Err(Bad::new(args[0], format!("{name} knows no {}", args[0])))
        }
    };
    let one_decimal = |allowed: &[u8]| -> Read<u8> {
        count(1)?;
        let number = decimal(args[0])?;
        let known = allowed.iter().copied().find(|&a| a as u64 == number);
        known.ok_or_else(|| Bad::new(args[0], format!("{name} knows no {}", args[0])))
    };
    let none = |op: Op| count(0).map(|()| op);
    let sets = [0, 1, 2, 3];
    let lamps = [0, 1, 2, 3, 4, 5, 6, 7];

    use KeyboardOp as K;
    use MouseOp as M;
    let keyboard = |op: K| Ok(Op::Keyboard(op));
    let mouse = |op: M| Ok(Op::Mouse(op, parse_identity(state)?));
    let op = match name {
        "init" => none(Op::Init(parse_controller(state)?)),
        "controller_test" => none(Op::ControllerTest),
        "test_port1" => none(Op::TestPort1),
        "test_port2" => none(Op::TestPort2),
        "read_config" => none(Op::ReadConfig),
        "write_config" => Ok(Op::WriteConfig(one_hex(&[])?)),
        "polling_send" => Ok(Op::PollingSend(one_decimal(&sets)?)),
        "polling_receive" => none(Op::PollingReceive),
        "keyboard_command" => keyboard(K::Command(one_hex(&KEYBOARD_COMMANDS)?)),
        "keyboard_data_set" => keyboard(K::DataSet(one_decimal(&sets)?)),
        "keyboard_data_led" => keyboard(K::DataLed(one_decimal(&lamps)?)),
        "keyboard_reset" => none(Op::Keyboard(K::Reset)),
        "set_keyboard_led" => keyboard(K::SetLed(one_decimal(&lamps)?)),
        "set_keyboard_scancode_set" => keyboard(K::SetScancodeSet(one_decimal(&sets)?)),
        "get_keyboard_scancode_set" => none(Op::Keyboard(K::GetScancodeSet)),
        "keyboard_detect" => none(Op::Keyboard(K::Detect)),
        "mouse_command" => mouse(M::Command(one_hex(&MOUSE_COMMANDS)?)),
        "mouse_data_rate" => mouse(M::DataRate(one_decimal(&RATES)?)),
        "mouse_data_resolution" => mouse(M::DataResolution(one_decimal(&sets)?)),
        "mouse_reset" => count(0).and_then(|()| mouse(M::Reset)),
        "mouse_enable" => count(0).and_then(|()| mouse(M::Enable)),
        "mouse_disable" => count(0).and_then(|()| mouse(M::Disable)),
        "set_mouse_sampling_rate" => mouse(M::SetSamplingRate(one_decimal(&RATES)?)),
        "mouse_resolution" => mouse(M::Resolution(one_decimal(&sets)?)),
        "mouse_id" => count(0).and_then(|()| mouse(M::Id)),
        "set_mouse_id" => count(0).and_then(|()| mouse(M::SetId)),
        "read_mouse_packet" => count(0).and_then(|()| mouse(M::ReadPacket)),
        "read_signed_packet" => count(0).and_then(|()| mouse(M::ReadSignedPacket)),
        "keyboard_init" => {
            none(Op::KeyboardInit { two: table.map_or(Ok(false), are_two)?, rated: profile.map_or(Ok(false), bit)? })
        }
        // The Rust has one handler; the port has also an entry that changes the record in place.
        "handle" => none(Op::Handle(parse_handler(pairs(state))?, parse_plan(plan.unwrap_or("auto"))?)),
        "to_ascii" => {
            count(2)?;
            let keycode = hex(args[0], 2)? as u8;
            if keycode > LAST_KEYCODE && !RELEASE_KEYCODES.contains(&keycode) {
                return Err(Bad::new(args[0], format!("{} is no keycode", args[0])));
            }
            Ok(Op::ToAscii(keycode, parse_flags(args[1])?))
        }
        "convert_set2" => none(Op::ConvertSet2),
        "type_text" => none(Op::TypeText),
        prefs_apply::NAME => {
            count(2)?;
            Ok(Op::ApplyPreferences(Preferences::parse(args[0], args[1])?))
        }
        prefs_code::WRITE => {
            count(2)?;
            Ok(Op::WritePreferences(Preferences::parse(args[0], args[1])?))
        }
        prefs_code::READ_1 => none(Op::ReadPreferences(1)),
        prefs_code::READ_2 => none(Op::ReadPreferences(2)),
        _ => return Err(Bad::new(name, format!("there is no operation '{name}'"))),
    }?;
    let takes = [
        ("plan", plan, matches!(op, Op::Handle(..))),
        ("table", table, matches!(op, Op::KeyboardInit { .. })),
        ("profile", profile, matches!(op, Op::KeyboardInit { .. })),
        ("state", state, matches!(op, Op::Handle(..) | Op::Mouse(..) | Op::Init(..))),
    ];
    match takes.into_iter().find_map(|(key, value, takes)| value.filter(|_| !takes).map(|value| (key, value))) {
        Some((key, value)) => Err(Bad::new(value, format!("{name} takes no {key}"))),
        None => Ok(op),
    }
}

pub fn decimal(text: &str) -> Read<u64> {
    // A sign is no digit, which `parse` lets through.
    let digits = text.bytes().all(|byte| byte.is_ascii_digit());
    let number = text.parse().ok().filter(|_| digits);
    number.ok_or_else(|| Bad::new(text, format!("'{text}' is no decimal number of 64 bits")))
}

/// A number up to a limit.
pub fn at_most(most: u64, text: &str) -> Read<u64> {
    match decimal(text)? {
        number if number <= most => Ok(number),
        number => Err(Bad::new(text, format!("{number} is above {most}"))),
    }
}

/// The room of a log or of an output.
pub fn room(text: &str) -> Read<usize> {
    Ok(at_most(MOST_BYTES as u64, text)? as usize)
}

pub fn hex(text: &str, digits: usize) -> Read<u16> {
    let good = text.len() == digits && text.bytes().all(|b| b.is_ascii_hexdigit());
    let number = u16::from_str_radix(text, 16).ok().filter(|_| good);
    number.ok_or_else(|| Bad::new(text, format!("'{text}' is not {digits} hexadecimal digits")))
}

/// A part of a list and how often it comes: PART or PART*N. Repeated so often there may not be more than `most` things.
pub fn repeated(part: &str, most: u64, things: impl FnOnce(&str) -> u64) -> Read<(&str, u64)> {
    let Some((one, times)) = part.split_once('*') else { return Ok((part, 1)) };
    let number = decimal(times)?;
    match number.checked_mul(things(one).max(1)) {
        Some(all) if all <= most => Ok((one, number)),
        _ => Err(Bad::new(times, format!("'{part}' is more than {most}"))),
    }
}

/// Parts joined by commas, each perhaps repeated: 0001FA*4,02*255. `-` is empty.
pub fn parse_script(text: &str) -> Read<Vec<u8>> {
    let mut script = Vec::new();
    if text == "-" || text.is_empty() {
        return Ok(script);
    }
    for part in text.split(',') {
        let left = (MOST_BYTES - script.len()) as u64;
        let (digits, times) = repeated(part, left, |digits| digits.len() as u64 / 2)?;
        let bad = || Bad::new(digits, format!("'{digits}' is not pairs of hexadecimal digits"));
        if digits.is_empty() || digits.len() % 2 == 1 || !digits.is_ascii() {
            return Err(bad());
        }
        let pairs = (0..digits.len()).step_by(2).map(|at| Ok(hex(&digits[at..at + 2], 2)? as u8));
        let bytes = pairs.collect::<Read<Vec<u8>>>()?;
        (0..times).for_each(|_| script.extend(&bytes));
    }
    Ok(script)
}

/// The pairs `key:value` of a state.
pub fn pairs(state: Option<&str>) -> impl Iterator<Item = Read<(&str, &str)>> + Clone {
    let parts = state.into_iter().flat_map(|s| s.split(','));
    parts.map(|part| {
        part.split_once(':').ok_or_else(|| Bad::new(part, format!("'{part}' of the state is not key:value")))
    })
}

pub fn bit(text: &str) -> Read<bool> {
    match text {
        "0" => Ok(false),
        "1" => Ok(true),
        _ => Err(Bad::new(text, format!("'{text}' is neither 0 nor 1"))),
    }
}

fn parse_controller(state: Option<&str>) -> Read<Controller> {
    let mut controller = Controller::default();
    for pair in pairs(state) {
        match pair? {
            ("init", v) => controller.init = bit(v)?,
            ("kbd", v) => controller.kbd = bit(v)?,
            ("mouse", v) => controller.mouse = bit(v)?,
            (key, _) => return Err(Bad::new(key, format!("a controller's state has no '{key}'"))),
        }
    }
    Ok(controller)
}

/// A mouse's identity: 0, 3 or 4.
pub fn identity(text: &str) -> Read<u8> {
    match text {
        "0" => Ok(0),
        "3" => Ok(3),
        "4" => Ok(4),
        _ => Err(Bad::new(text, format!("'{text}' is no identity"))),
    }
}

fn parse_identity(state: Option<&str>) -> Read<Option<u8>> {
    let mut found = None;
    for pair in pairs(state) {
        found = match pair? {
            ("id", v) => Some(identity(v)?),
            (key, v) => return Err(Bad::new(key, format!("'{key}:{v}' is no mouse's state"))),
        };
    }
    Ok(found)
}

/// Flags may be any that three digits tell; the Rust has none above `ALL_FLAGS`.
fn parse_flags(text: &str) -> Read<u16> {
    hex(text, 3)
}

/// Whether a table has two keyboards.
fn are_two(text: &str) -> Read<bool> {
    match text {
        "1" => Ok(false),
        "2" => Ok(true),
        _ => Err(Bad::new(text, format!("there is no table with '{text}' keyboards"))),
    }
}

/// A handler's record by the pairs of a state.
pub fn parse_handler<'a>(state: impl Iterator<Item = Read<(&'a str, &'a str)>>) -> Read<Handler> {
    let mut handler = Handler::default();
    for pair in state {
        match pair? {
            ("queue", v) => handler.queue = parse_events(v, QUEUE_PLACES as u64)?,
            ("table", v) => handler.two = are_two(v)?,
            ("profile", v) => handler.rated = bit(v)?,
            ("start", v) => handler.start = decimal(v)?,
            ("count", v) => handler.count = said("events", v, QUEUE_PLACES, &mut handler.queue)?,
            // The fields of side 2 have a 2 behind their names.
            (key, v) => match key.strip_suffix('2') {
                Some(name) => parse_remembered(&mut handler.second, name, key, v)?,
                None => parse_remembered(&mut handler.first, key, key, v)?,
            },
        }
    }
    Ok(handler)
}

fn parse_remembered(keyboard: &mut Remembered, name: &str, key: &str, v: &str) -> Read<()> {
    match name {
        "ext" => keyboard.ext = bit(v)?,
        "flags" => keyboard.flags = parse_flags(v)?,
        "kept" => {
            keyboard.kept = parse_script(v)?;
            if keyboard.kept.len() > WAITING_PLACES {
                return Err(Bad::new(v, format!("no more than {WAITING_PLACES} bytes can be told to wait")));
            }
        }
        "waits" => keyboard.waits = said("bytes", v, WAITING_PLACES, &mut keyboard.kept)?,
        _ => return Err(Bad::new(key, format!("a handler's state has no '{key}'"))),
    }
    Ok(())
}

/// How many things are said to wait: more than there are places, where every place is told, or the first of those that are told.
fn said<T>(what: &str, text: &str, places: usize, told: &mut Vec<T>) -> Read<Option<u64>> {
    let number = decimal(text)?;
    if number <= told.len() as u64 {
        told.truncate(number as usize);
        return Ok(None);
    }
    match told.len() == places {
        true => Ok(Some(number)),
        false => Err(Bad::new(text, format!("'{text}' {what} can't be said to wait"))),
    }
}

/// Events joined by `;`, each perhaps repeated, so many at most; `-` is none.
pub fn parse_events(text: &str, most: u64) -> Read<Vec<KeyEvent>> {
    let mut events = Vec::new();
    if text == "-" {
        return Ok(events);
    }
    for part in text.split(';') {
        let left = most - events.len() as u64;
        let (event, times) = repeated(part, left, |_| 1)?;
        let event = parse_event(event)?;
        if times > left {
            return Err(Bad::new(part, format!("there are more than {most} events")));
        }
        events.resize(events.len() + times as usize, event);
    }
    Ok(events)
}

fn parse_event(text: &str) -> Read<KeyEvent> {
    let bad = || Bad::new(text, format!("'{text}' is no event"));
    let (event, side) = match text.strip_suffix("@2") {
        Some(event) => (event, Side::Second),
        None => (text, Side::First),
    };
    if event.len() != 6 || !event.is_ascii() {
        return Err(bad());
    }
    let released = match &event[2..3] {
        "P" => false,
        "R" => true,
        _ => return Err(bad()),
    };
    let keycode = hex(&event[..2], 2)? as u8;
    if keycode > LAST_KEYCODE {
        return Err(bad());
    }
    Ok(KeyEvent { keycode, released, flags: parse_flags(&event[3..])?, side })
}

fn parse_plan(text: &str) -> Read<Vec<Step>> {
    let mut left = MOST_CALLS;
    let step = |part| {
        let (letter, times) = repeated(part, left, |_| 1)?;
        left = left.saturating_sub(times);
        match letter {
            "h" => Ok(Step::Handle(Side::First, times)),
            "g" => Ok(Step::Handle(Side::Second, times)),
            "t" => Ok(Step::Take(times)),
            _ => Err(Bad::new(part, format!("'{part}' is no part of a plan"))),
        }
    };
    match text {
        "auto" => Ok(vec![Step::Auto]),
        "each" => Ok(vec![Step::Each]),
        _ => text.split(',').map(step).collect(),
    }
}

/// Bytes as hexadecimal digits; none as `-`.
pub struct Hex<'a>(pub &'a [u8]);

impl fmt::Display for Hex<'_> {
    fn fmt(&self, f: &mut fmt::Formatter) -> fmt::Result {
        const DIGITS: &[u8; 16] = b"0123456789ABCDEF";
        if self.0.is_empty() {
            return f.write_str("-");
        }
        for byte in self.0 {
            f.write_char(DIGITS[(byte >> 4) as usize] as char)?;
            f.write_char(DIGITS[(byte & 15) as usize] as char)?;
        }
        Ok(())
    }
}

/// A script in parts, each with how often it comes: long runs of one byte, or of two in turn, and what is between them.
pub fn parts(script: &[u8]) -> Vec<(&[u8], usize)> {
    const LONG: usize = 12;
    let mut parts = Vec::new();
    let (mut plain, mut at) = (0, 0);
    while at < script.len() {
        let rest = &script[at..];
        let run = |width: usize| {
            let alike = rest.iter().zip(rest.iter().skip(width)).take_while(|(a, b)| a == b).count();
            alike / width + 1
        };
        let width = if run(1) >= LONG { 1 } else { 2 };
        let times = run(width);
        if times < LONG {
            at += 1;
            continue;
        }
        parts.push((&script[plain..at], 1));
        parts.push((&script[at..at + width], times));
        at += width * times;
        plain = at;
    }
    parts.push((&script[plain..], 1));
    parts.retain(|(bytes, _)| !bytes.is_empty());
    parts
}

/// A script with its long runs as `XX*N` and `XXYY*N`.
pub fn push_script(out: &mut String, script: &[u8]) {
    for (i, (bytes, times)) in parts(script).into_iter().enumerate() {
        write!(out, "{}{}", if i == 0 { "" } else { "," }, Hex(bytes)).unwrap();
        if times > 1 {
            write!(out, "*{times}").unwrap();
        }
    }
    if script.is_empty() {
        out.push('-');
    }
}

impl fmt::Display for KeyEvent {
    fn fmt(&self, f: &mut fmt::Formatter) -> fmt::Result {
        write!(f, "{:02X}{}{:03X}", self.keycode, if self.released { 'R' } else { 'P' }, self.flags)?;
        f.write_str(match self.side {
            Side::First => "",
            Side::Second => "@2",
        })
    }
}

impl fmt::Display for Controller {
    fn fmt(&self, f: &mut fmt::Formatter) -> fmt::Result {
        write!(f, "init:{},kbd:{},mouse:{}", self.init as u8, self.kbd as u8, self.mouse as u8)
    }
}

impl fmt::Display for Handler {
    fn fmt(&self, f: &mut fmt::Formatter) -> fmt::Result {
        write!(f, "ext:{},flags:{:03X},queue:", self.first.ext as u8, self.first.flags)?;
        for (i, event) in self.queue.iter().enumerate() {
            write!(f, "{}{event}", if i == 0 { "" } else { ";" })?;
        }
        if self.queue.is_empty() {
            f.write_str("-")?;
        }
        self.fmt_further(f)
    }
}

impl Remembered {
    /// Whether such a keyboard makes its record malformed.
    fn is_malformed(&self) -> bool {
        self.flags > PORT_FLAGS || self.waits.is_some()
    }

    /// How many bytes wait.
    pub fn waiting(&self) -> u64 {
        self.waits.unwrap_or(self.kept.len() as u64)
    }
}

impl Handler {
    /// The fields behind the queue, each where it is not as in a fresh record for one keyboard.
    fn fmt_further(&self, f: &mut impl Write) -> fmt::Result {
        let (first, second) = (&self.first, &self.second);
        if !first.kept.is_empty() {
            write!(f, ",kept:{}", Hex(&first.kept))?;
        }
        if self.two {
            write!(f, ",table:2")?;
        }
        if second.ext {
            write!(f, ",ext2:1")?;
        }
        if second.flags != 0 {
            write!(f, ",flags2:{:03X}", second.flags)?;
        }
        if !second.kept.is_empty() {
            write!(f, ",kept2:{}", Hex(&second.kept))?;
        }
        if self.rated {
            write!(f, ",profile:1")?;
        }
        if self.start != 0 {
            write!(f, ",start:{}", self.start)?;
        }
        if let Some(count) = self.count {
            write!(f, ",count:{count}")?;
        }
        if let Some(waits) = first.waits {
            write!(f, ",waits:{waits}")?;
        }
        match second.waits {
            Some(waits) => write!(f, ",waits2:{waits}"),
            None => Ok(()),
        }
    }

    /// Whether a handler call of side 1 or a taking is refused 21.
    pub fn is_malformed(&self) -> bool {
        let of = |side| self.queue.iter().filter(|event| event.side == side).count();
        self.start_told() != 0
            || self.count.is_some()
            || self.first.is_malformed()
            || self.two && (self.second.is_malformed() || of(Side::First) > SHARE || of(Side::Second) > SHARE)
    }

    /// How many events wait.
    pub fn events(&self) -> u64 {
        self.count.unwrap_or(self.queue.len() as u64)
    }

    /// The start where it is no place, else 0: the others are not told.
    pub fn start_told(&self) -> u64 {
        if self.start < QUEUE_PLACES as u64 {
            0
        } else {
            self.start
        }
    }

    /// Why the port alone can have such a record, but for its flags; nothing where the Rust can too.
    fn beyond_rust(&self) -> Option<&'static str> {
        let has_second = self.queue.iter().any(|event| event.side == Side::Second);
        if self.two || has_second || self.second != Remembered::default() {
            return Some("the Rust's record has one keyboard");
        }
        if self.rated {
            return Some("the Rust's record has no profile");
        }
        if self.start != 0 || self.count.is_some() {
            return Some("the Rust's queue is not told its start or its count");
        }
        (self.first.waiting() > 0).then_some("no byte waits in the Rust's record")
    }

    /// The record as the Rust has it: of one keyboard, on its ten flags, and without bytes that wait.
    pub fn without_additions(mut self) -> Handler {
        self.first.flags &= ALL_FLAGS;
        for event in &mut self.queue {
            event.flags &= ALL_FLAGS;
        }
        Handler { first: Remembered { kept: Vec::new(), waits: None, ..self.first }, two: false, rated: false, ..self }
    }
}

impl Op {
    /// Why the port alone can answer a call of this operation; nothing where the Rust can too.
    pub fn beyond_rust(&self) -> Option<&'static str> {
        let has_other_flags = match self {
            Op::Mouse(MouseOp::ReadSignedPacket, _) => return Some("the Rust reads no packet with a signed wheel"),
            Op::KeyboardInit { two: true, .. } => return Some("the Rust's record has one keyboard"),
            Op::KeyboardInit { rated: true, .. } => return Some("the Rust's record has no profile"),
            Op::Handle(_, plan) if plan.iter().any(|step| matches!(step, Step::Handle(Side::Second, _))) => {
                return Some("the Rust has no handler of a second side")
            }
            Op::Handle(handler, _) if handler.beyond_rust().is_some() => return handler.beyond_rust(),
            Op::Handle(handler, _) => {
                handler.first.flags > ALL_FLAGS || handler.queue.iter().any(|event| event.flags > ALL_FLAGS)
            }
            Op::ToAscii(_, flags) => *flags > ALL_FLAGS,
            Op::ConvertSet2 => return Some("the Rust converts no set 2"),
            Op::TypeText => return Some("the Rust types no text"),
            Op::Salvage(_) => return Some("the Rust salvages no recording"),
            Op::Dispatch(_) => return Some("the Rust has no dispatcher"),
            Op::ApplyPreferences(_) => return Some("the Rust applies no preferences"),
            Op::WritePreferences(_) | Op::ReadPreferences(_) => return Some("the Rust codes no preferences"),
            Op::Season(_) => return Some("the Rust makes no report"),
            _ => false,
        };
        has_other_flags.then_some("the Rust has no flag above bit 9")
    }

    /// The operation, whether or not its call shows the bytes that it threw away.
    pub fn without_show(&self) -> &Op {
        match self {
            Op::Kept(op) => op,
            op => op,
        }
    }

    /// Whether a call's line has a script, and whether it has a log's room.
    pub fn takes_script(&self) -> bool {
        !matches!(self, Op::ToAscii(..)) && !self.takes_bytes()
    }

    pub fn takes_log(&self) -> bool {
        self.takes_script() && !matches!(self, Op::Mouse(MouseOp::ReadSignedPacket, _))
    }

    /// Whether it is an operation on lent bytes: an input and an output, no ports.
    pub fn takes_bytes(&self) -> bool {
        matches!(self, Op::ConvertSet2 | Op::TypeText | Op::WritePreferences(_) | Op::ReadPreferences(_))
    }

    /// Whether a call's line has the input of an operation on lent bytes, and whether it has the output's room.
    pub fn takes_input(&self) -> bool {
        self.takes_bytes() && !matches!(self, Op::WritePreferences(_))
    }

    pub fn takes_room(&self) -> bool {
        self.takes_bytes() && !matches!(self, Op::ReadPreferences(_))
    }

    /// Whether its answer counts the input's bytes that it used; others take all of it or none.
    pub fn counts_used(&self) -> bool {
        !matches!(self, Op::TypeText | Op::WritePreferences(_) | Op::ReadPreferences(_))
    }

    pub fn name(&self) -> &'static str {
        match self {
            Op::Init(_) => "init",
            Op::ControllerTest => "controller_test",
            Op::TestPort1 => "test_port1",
            Op::TestPort2 => "test_port2",
            Op::ReadConfig => "read_config",
            Op::WriteConfig(_) => "write_config",
            Op::PollingSend(_) => "polling_send",
            Op::PollingReceive => "polling_receive",
            Op::Keyboard(op) => match op {
                KeyboardOp::Command(_) => "keyboard_command",
                KeyboardOp::DataSet(_) => "keyboard_data_set",
                KeyboardOp::DataLed(_) => "keyboard_data_led",
                KeyboardOp::Reset => "keyboard_reset",
                KeyboardOp::SetLed(_) => "set_keyboard_led",
                KeyboardOp::SetScancodeSet(_) => "set_keyboard_scancode_set",
                KeyboardOp::GetScancodeSet => "get_keyboard_scancode_set",
                KeyboardOp::Detect => "keyboard_detect",
            },
            Op::Mouse(op, _) => match op {
                MouseOp::Command(_) => "mouse_command",
                MouseOp::DataRate(_) => "mouse_data_rate",
                MouseOp::DataResolution(_) => "mouse_data_resolution",
                MouseOp::Reset => "mouse_reset",
                MouseOp::Enable => "mouse_enable",
                MouseOp::Disable => "mouse_disable",
                MouseOp::SetSamplingRate(_) => "set_mouse_sampling_rate",
                MouseOp::Resolution(_) => "mouse_resolution",
                MouseOp::Id => "mouse_id",
                MouseOp::SetId => "set_mouse_id",
                MouseOp::ReadPacket => "read_mouse_packet",
                MouseOp::ReadSignedPacket => "read_signed_packet",
            },
            Op::KeyboardInit { .. } => "keyboard_init",
            Op::Handle(..) => "handle",
            Op::ToAscii(..) => "to_ascii",
            Op::ConvertSet2 => "convert_set2",
            Op::TypeText => "type_text",
            Op::Salvage(_) => salvage::NAME,
            Op::Dispatch(_) => dispatch::NAME,
            Op::ApplyPreferences(_) => prefs_apply::NAME,
            Op::WritePreferences(_) => prefs_code::WRITE,
            Op::ReadPreferences(1) => prefs_code::READ_1,
            Op::ReadPreferences(_) => prefs_code::READ_2,
            Op::Season(season) => season.name(),
            Op::Kept(op) => op.name(),
        }
    }

    /// The arguments, each with a blank before it.
    fn push_args(&self, out: &mut String) {
        use KeyboardOp as K;
        use MouseOp as M;
        match *self {
            Op::Kept(ref op) => op.push_args(out),
            Op::ApplyPreferences(ref preferences) | Op::WritePreferences(ref preferences) => {
                write!(out, " {preferences}").unwrap()
            }
            Op::WriteConfig(byte) | Op::Keyboard(K::Command(byte)) | Op::Mouse(M::Command(byte), _) => {
                write!(out, " {byte:02X}").unwrap()
            }
            Op::PollingSend(n)
            | Op::Keyboard(K::DataSet(n) | K::DataLed(n) | K::SetLed(n) | K::SetScancodeSet(n))
            | Op::Mouse(M::DataRate(n) | M::DataResolution(n) | M::SetSamplingRate(n) | M::Resolution(n), _) => {
                write!(out, " {n}").unwrap()
            }
            Op::ToAscii(keycode, flags) => write!(out, " {keycode:02X} {flags:03X}").unwrap(),
            Op::KeyboardInit { two, rated } => {
                *out += if two { " table=2" } else { "" };
                *out += if rated { " profile=1" } else { "" };
            }
            _ => {}
        }
    }
}

impl Call {
    /// The call as a line; `parse` gives the call back.
    pub fn line(&self) -> String {
        let mut out = String::with_capacity(64 + 2 * self.script.len().min(1000));
        out += self.op.name();
        if let Op::Salvage(salvage) = &self.op {
            salvage.push_fields(self, &mut out);
            return out;
        }
        if let Op::Season(season) = &self.op {
            season.push_fields(&mut out);
            return out;
        }
        if let Op::Dispatch(dispatch) = &self.op {
            dispatch.push_fields(self, &mut out);
            return out;
        }
        self.op.push_args(&mut out);
        match self.op.without_show() {
            Op::Init(controller) if *controller != Controller::default() => write!(out, " state={controller}").unwrap(),
            Op::Mouse(_, Some(id)) => write!(out, " state=id:{id}").unwrap(),
            Op::Handle(handler, _) if *handler != Handler::default() => push_handler_state(&mut out, handler),
            _ => {}
        }
        if self.op.takes_script() {
            out += " script=";
            push_script(&mut out, &self.script);
        }
        if let Some(script2) = &self.script2 {
            out += " script2=";
            push_script(&mut out, script2);
        }
        if self.op.takes_log() {
            write!(out, " log={}", self.room).unwrap();
        }
        if self.op.takes_input() {
            out += " in=";
            push_script(&mut out, &self.script);
        }
        if self.op.takes_room() {
            write!(out, " room={}", self.room).unwrap();
        }
        if let Op::Handle(_, plan) = &self.op {
            push_plan(&mut out, plan);
        }
        if self.repeat != 1 {
            write!(out, " repeat={}", self.repeat).unwrap();
        }
        if let Op::Kept(_) = self.op {
            out += " show=kept";
        }
        out
    }
}

/// A handler's state, equal events that wait behind one another as one with `*N`.
pub fn push_handler_state(out: &mut String, handler: &Handler) {
    write!(out, " state=ext:{},flags:{:03X},queue:", handler.first.ext as u8, handler.first.flags).unwrap();
    for (i, run) in handler.queue.chunk_by(|a, b| a == b).enumerate() {
        write!(out, "{}{}", if i == 0 { "" } else { ";" }, run[0]).unwrap();
        if run.len() > 1 {
            write!(out, "*{}", run.len()).unwrap();
        }
    }
    if handler.queue.is_empty() {
        out.push('-');
    }
    handler.fmt_further(out).unwrap();
}

fn push_plan(out: &mut String, plan: &[Step]) {
    if plan == [Step::Auto] {
        return;
    }
    *out += " plan=";
    for (i, step) in plan.iter().enumerate() {
        if i > 0 {
            out.push(',');
        }
        let (letter, times) = match *step {
            Step::Auto => ("auto", 1),
            Step::Each => ("each", 1),
            Step::Handle(Side::First, times) => ("h", times),
            Step::Handle(Side::Second, times) => ("g", times),
            Step::Take(times) => ("t", times),
        };
        *out += letter;
        if times != 1 {
            write!(out, "*{times}").unwrap();
        }
    }
}
