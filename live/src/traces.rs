//! The recorded calls of tests/traces, made again live: on a machine just switched on, in their order, with the keys and movements that the
//! comments tell. Each must read the very bytes that were recorded, and answer as it was recorded that it does.

use crate::qemu::Qemu;
use std::collections::HashMap;
use std::time::Duration;
use vurdellow::drive::{drive, Patient, Ports, Recorded};
use vurdellow::keyboard::{KeyboardType, Lamps, ScancodeSet};
use vurdellow::{
    Action, Controller, Event, Exchange, Handler, Identity, Keyboards, Outcome, Port, Profile, Resolution,
    SamplingRate, Session, Side, Steps,
};

/// Calls whose scripts are longer poll until they give up; a short run ends before the first of them.
const LONG: usize = 1_000;

/// The time that is waited for a device that says nothing.
const LIMIT: Duration = Duration::from_millis(50);

/// What became of a file's calls.
#[derive(Default)]
pub struct Made {
    /// The library's calls that were made and compared, by name.
    pub compared: Vec<Compared>,
    /// Calls that the library has not: made by hand, so that the devices are as they were, or passed over.
    pub by_hand: usize,
    pub passed_over: usize,
    /// Whether a short run ended before the last call.
    pub cut: bool,
    /// The longest script.
    pub longest: usize,
    pub differences: Vec<String>,
}

pub struct Compared {
    pub name: String,
    pub times: usize,
    /// The call that was first, and the bytes that it read.
    pub first: String,
    pub read: String,
}

struct Call<'a> {
    name: &'a str,
    argument: Option<&'a str>,
    fields: HashMap<&'a str, &'a str>,
}

impl Call<'_> {
    fn parse(line: &str) -> Call<'_> {
        let mut words = line.split_ascii_whitespace();
        let name = words.next().expect("a call");
        let (fields, arguments): (Vec<_>, Vec<_>) = words.partition(|word| word.contains('='));
        let fields = fields.into_iter().filter_map(|field| field.split_once('=')).collect();
        Call { name, argument: arguments.first().copied(), fields }
    }

    /// A number of the state.
    fn state(&self, name: &str) -> Option<&str> {
        let state = self.fields.get("state")?;
        state.split(',').find_map(|field| field.strip_prefix(name)?.strip_prefix(':'))
    }

    fn number(&self) -> u8 {
        self.argument.and_then(|argument| argument.parse().ok()).expect("a number")
    }
}

/// The bytes of `0001FA*4,02*255`.
fn bytes(hex: &str) -> Vec<u8> {
    let mut all = Vec::new();
    for part in hex.split(',').filter(|part| *part != "-") {
        let (digits, times) = part.split_once('*').map_or((part, 1), |(d, n)| (d, n.parse().expect("a count")));
        let pair = |at| u8::from_str_radix(&digits[at..at + 2], 16).expect("hexadecimal");
        let once: Vec<u8> = (0..digits.len()).step_by(2).map(pair).collect();
        all.extend(once.repeat(times));
    }
    all
}

fn hex(bytes: &[u8]) -> String {
    let digits: String = bytes.iter().map(|byte| format!("{byte:02X}")).collect();
    if digits.is_empty() {
        "-".to_string()
    } else {
        digits
    }
}

/// Makes a file's calls on a machine just switched on, or on one anew for each initialisation. `own` has the answers that the port gives
/// where a request changed them.
pub fn make(text: &str, anew: bool, own: &HashMap<&str, &str>, short: bool) -> std::io::Result<Made> {
    let mut live = Live::start()?;
    let mut made = Made::default();
    let mut moves = "";
    let mut lines = text.lines().filter(|line| !line.is_empty());
    while let Some(line) = lines.next() {
        if let Some(comment) = line.strip_prefix("# ") {
            moves = live.heed(comment, &mut made.differences);
            continue;
        }
        let recorded = lines.next().expect("an answer");
        let call = Call::parse(line);
        let script = bytes(call.fields["script"]);
        if short && script.len() > LONG {
            made.cut = true;
            break;
        }
        if anew && call.name == "init" {
            live = Live::start()?;
        }
        let Some((read, answer)) = live.make(&call, std::mem::take(&mut moves)) else {
            made.passed_over += 1;
            continue;
        };
        made.longest = made.longest.max(read.len());
        if by_hand(call.name).is_some() {
            made.by_hand += 1;
        } else {
            match made.compared.iter_mut().find(|compared| compared.name == call.name) {
                Some(compared) => compared.times += 1,
                None => made.compared.push(Compared {
                    name: call.name.to_string(),
                    times: 1,
                    first: line.split(" script=").next().unwrap_or_default().to_string(),
                    read: hex(&read),
                }),
            }
        }
        let expected = own.get(line).copied().unwrap_or(recorded);
        if read != script {
            made.differences.push(format!("{line}\nread {}", hex(&read)));
        }
        if answer != expected {
            made.differences.push(format!("{line}\nrecorded {expected}\nlive     {answer}"));
        }
    }
    Ok(made)
}

/// The controller's command of a call that the library has not by itself.
fn by_hand(name: &str) -> Option<u8> {
    match name {
        "read_config" => Some(0x20),
        "controller_test" => Some(0xAA),
        "test_port1" => Some(0xAB),
        "test_port2" => Some(0xA9),
        _ => None,
    }
}

struct Live {
    ports: Patient<Qemu>,
}

/// A call that was made, with what it read and wrote.
struct Driven<R> {
    outcome: R,
    script: Vec<u8>,
    log: Vec<u8>,
}

fn driven<S: Steps>(ports: &mut Patient<Qemu>, steps: S) -> Driven<S::Outcome> {
    let mut ports = Recorded::new(ports);
    let outcome = drive(&mut ports, steps);
    Driven { outcome, script: ports.script, log: ports.log }
}

/// A call that answers nothing but its end.
fn told<T>(driven: &Driven<Exchange<T>>, value: impl Fn(&T) -> String, record: &str) -> String {
    let said = driven.outcome.as_ref().ok().map(|done| value(&done.value)).unwrap_or_default();
    line(driven, &said, record)
}

fn line<R: Outcome>(driven: &Driven<R>, value: &str, record: &str) -> String {
    let end = driven.outcome.refusal().map_or("ok".to_string(), |refusal| format!("refused:{}", refusal.number()));
    let (used, pairs, log) = (driven.outcome.used(), driven.outcome.pairs(), hex(&driven.log));
    let value = if value.is_empty() { String::new() } else { format!(" val={value}") };
    format!("out={end} used={used} wrote={pairs} log={log}{value} rec={record}")
}

fn event(event: Event) -> String {
    let action = if event.action == Action::Pressed { 'P' } else { 'R' };
    format!("{:02X}{action}{:03X}", event.keycode as u8, event.modifiers.bits())
}

/// A handler's record, whose events are taken.
fn record(handler: &mut Handler) -> String {
    let prefix = handler.words()[0];
    let flags = handler.modifiers(Side::First).bits();
    let queue: Vec<String> = handler.events().map(event).collect();
    let queue = if queue.is_empty() { "-".to_string() } else { queue.join(";") };
    format!("ext:{prefix},flags:{flags:03X},queue:{queue}")
}

impl Live {
    fn start() -> std::io::Result<Live> {
        Ok(Live { ports: Patient::new(Qemu::start()?, LIMIT) })
    }

    fn ports(&mut self) -> &mut Qemu {
        &mut self.ports.ports
    }

    fn inject(&mut self, moves: &str) {
        for at_once in moves.split(',').filter(|moves| !moves.is_empty()) {
            self.ports().inject(at_once);
        }
    }

    /// Does what a comment tells that was done: bytes that a call left are read, the configuration is written. Gives the keys and movements
    /// that come before the next call.
    fn heed<'a>(&mut self, comment: &'a str, differences: &mut Vec<String>) -> &'a str {
        if let Some(answer) = comment.strip_prefix("left: ") {
            let recorded = answer.split(' ').find_map(|field| field.strip_prefix("val=")).expect("what is left");
            let mut left = Vec::new();
            while self.ports().read(Port::Status) & 1 != 0 {
                left.push(self.ports().read(Port::Data));
            }
            if hex(&left) != recorded {
                differences.push(format!("left {} where {recorded} was recorded", hex(&left)));
            }
        } else if comment.starts_with("config written 47") {
            self.ports().write(Port::Status, 0x60);
            self.ports().write(Port::Data, 0x47);
        }
        comment.split_once("injected: ").map_or("", |(_, moves)| moves)
    }

    /// Makes a call: the bytes that were read, and its answer as a line. `None` where it can't be made.
    fn make(&mut self, call: &Call, moves: &str) -> Option<(Vec<u8>, String)> {
        if call.name == "handle" {
            return Some(self.handle(call, moves));
        }
        self.inject(moves);
        let ports = &mut self.ports;
        let id = call.state("id").map(|id| match id {
            "0" => Identity::NoWheel,
            "3" => Identity::Wheel,
            _ => Identity::FiveButtons,
        });
        let named = id.map_or("-".to_string(), |id| format!("id:{}", id.number()));
        let nothing = |(): &()| String::new();
        let (script, answer) = match call.name {
            "init" => {
                let has = |name| call.state(name) == Some("1");
                let passed = Controller { initialized: has("init"), keyboard: has("kbd"), mouse: has("mouse") };
                let driven = driven(ports, Session::controller_init(passed));
                let left = driven.outcome.map_or(passed, |done| done.value);
                let Controller { initialized, keyboard, mouse } = left;
                let [initialized, keyboard, mouse] = [initialized, keyboard, mouse].map(u8::from);
                let record = format!("init:{initialized},kbd:{keyboard},mouse:{mouse}");
                (driven.script.clone(), told(&driven, |_| String::new(), &record))
            }
            "keyboard_init" => {
                let mut handler = Handler::new(Keyboards::One, Profile::Any);
                let driven = driven(ports, Session::keyboard_init());
                let record = if driven.outcome.is_ok() { record(&mut handler) } else { "none".to_string() };
                (driven.script.clone(), told(&driven, nothing, &record))
            }
            "keyboard_reset" => plain(ports, &named, Session::keyboard_reset()),
            "keyboard_detect" => {
                let driven = driven(ports, Session::keyboard_detect());
                let name = |found: &KeyboardType| {
                    let name = match found {
                        KeyboardType::Mf2Keyboard => "plain",
                        KeyboardType::Mf2KeyboardTranslated => "translated",
                        KeyboardType::AncientAtKeyboard => "ancient",
                    };
                    name.to_string()
                };
                (driven.script.clone(), told(&driven, name, "-"))
            }
            "set_keyboard_led" => {
                let lamps = [Lamps::SCROLL, Lamps::NUM, Lamps::CAPS].into_iter();
                let lamps =
                    lamps.filter(|lamp| call.number() & lamp.bits() != 0).fold(Lamps::NONE, |all, one| all | one);
                let driven = driven(ports, Session::keyboard_set_lamps(lamps));
                (driven.script.clone(), line(&driven, "", "-"))
            }
            "set_keyboard_scancode_set" => {
                let sets = [ScancodeSet::Set1, ScancodeSet::Set2, ScancodeSet::Set3];
                let set = sets.into_iter().find(|set| *set as u8 == call.number())?;
                plain(ports, &named, Session::keyboard_set_scancode_set(set))
            }
            "get_keyboard_scancode_set" => {
                let driven = driven(ports, Session::keyboard_get_scancode_set());
                (driven.script.clone(), told(&driven, |set| format!("{set:02X}"), "-"))
            }
            "mouse_reset" => plain(ports, &named, Session::mouse_reset()),
            "mouse_enable" => plain(ports, &named, Session::mouse_start_packets()),
            "mouse_disable" => plain(ports, &named, Session::mouse_stop_packets()),
            "mouse_id" => {
                let driven = driven(ports, Session::mouse_get_identity());
                (driven.script.clone(), told(&driven, |id| format!("{:02X}", id.number()), &named))
            }
            "set_mouse_id" => {
                let driven = driven(ports, Session::mouse_set_identity(id?));
                let left = driven.outcome.unwrap_or_else(|refused| refused.done).value;
                (driven.script.clone(), line(&driven, "", &format!("id:{}", left.number())))
            }
            "set_mouse_sampling_rate" => {
                use SamplingRate::*;
                let rates = [Hz10, Hz20, Hz40, Hz60, Hz80, Hz100, Hz200];
                let rate = rates.into_iter().find(|rate| *rate as u8 == call.number())?;
                plain(ports, &named, Session::mouse_set_sampling_rate(rate))
            }
            "mouse_resolution" => {
                use Resolution::*;
                let all = [Counts1, Counts2, Counts4, Counts8];
                let resolution = all.into_iter().find(|resolution| *resolution as u8 == call.number())?;
                plain(ports, &named, Session::mouse_set_resolution(resolution))
            }
            "read_mouse_packet" => {
                let driven = driven(ports, Session::mouse_read_packet(id?));
                let packet = driven.outcome.ok()?.value;
                let [left, right, middle, b4, b5] =
                    [packet.left(), packet.right(), packet.middle(), packet.fourth(), packet.fifth()].map(u8::from);
                // Read with a sign (request 2.1); the recorded call has none at identity 4.
                let unsigned = id == Some(Identity::FiveButtons);
                let wheel = if unsigned { i32::from(packet.wheel) & 15 } else { packet.wheel.into() };
                let (one, x, y) = (driven.script[0] >> 3 & 1, packet.x, packet.y);
                let value = format!(
                    "left:{left},right:{right},middle:{middle},one:{one},x:{x},y:{y},wheel:{wheel},b4:{b4},b5:{b5}"
                );
                (driven.script.clone(), line(&driven, &value, &named))
            }
            name => {
                let command = by_hand(name)?;
                let qemu = self.ports();
                qemu.write(Port::Status, command);
                let mut script = Vec::new();
                if name.starts_with("test") {
                    script.push(qemu.read(Port::Status));
                }
                script.push(qemu.read(Port::Data));
                let value = if name == "read_config" { format!(" val={}", hex(&script)) } else { String::new() };
                let (used, log) = (script.len(), hex(&[0x64, command]));
                (script, format!("out=ok used={used} wrote=1 log={log}{value} rec=-"))
            }
        };
        Some((script, answer))
    }

    /// Handler calls while a byte of the keyboard is there or one waits in the record, after each move.
    fn handle(&mut self, call: &Call, moves: &str) -> (Vec<u8>, String) {
        let mut handler = Handler::new(Keyboards::One, Profile::Any);
        if call.state("flags") == Some("001") {
            let held = handler.handle(Side::First, &[0x2A], &mut []);
            assert!(held.is_ok() && handler.events().count() == 1);
        }
        let (mut script, mut calls, mut wrote) = (Vec::new(), Vec::new(), 0);
        for at_once in moves.split(',') {
            self.ports().inject(at_once);
            while handler.waiting_bytes(Side::First) > 0 || self.ports().read(Port::Status) & 0x21 == 0x01 {
                let driven = driven(&mut self.ports, handler.handling(Side::First));
                let (end, done) = match driven.outcome {
                    Ok(done) => ("ok".to_string(), done),
                    Err(refused) => (refused.number().to_string(), refused.done),
                };
                let failed = if done.lamps_failed { "+14" } else { "" };
                let dropped = if done.dropped > 0 { format!("~{}", done.dropped) } else { String::new() };
                calls.push(format!("h:{}:{}:{}:{end}{failed}{dropped}", done.used, done.pairs, hex(&driven.log)));
                wrote += done.pairs;
                script.extend(driven.script);
            }
        }
        let answer = format!(
            "out=ok used={} wrote={wrote} calls={} rec={}",
            script.len(),
            calls.join(","),
            record(&mut handler)
        );
        (script, answer)
    }
}

fn plain(ports: &mut Patient<Qemu>, record: &str, session: Session<Exchange<()>>) -> (Vec<u8>, String) {
    let driven = driven(ports, session);
    (driven.script.clone(), told(&driven, |()| String::new(), record))
}
