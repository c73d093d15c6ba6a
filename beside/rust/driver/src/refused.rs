//! Calls that the by-value functions can't be given: an argument that stands for nothing, 255, and a lent record of another length or
//! with a start or a count that no line can tell, 21. All else is 0, a report as it was, and nothing is changed.

use crate::by_bytes::{operation, STEP_WORDS};
use crate::call::{KEYBOARD_COMMANDS, LAST_KEYCODE, MOUSE_COMMANDS, RATES, RELEASE_KEYCODES};
use crate::device::{Rng, TELLING};
use crate::library::{self as vd, *};
use crate::port::{Lent, Port, Refusing};
use crate::ways::{HANDLINGS, TAKINGS};
use crate::words::{self, DISPATCHER_WORDS, HANDLER_WORDS};

/// What is answered where an argument stands for nothing.
const INVALID_ARGUMENT: u32 = 255;
const MALFORMED: u32 = 21;

/// A number that is none of these: next to one, or any.
fn none_of(rng: &mut Rng, known: &[u32]) -> u32 {
    loop {
        let number = match rng.below(5) {
            0 => rng.next() as u32,
            1 => rng.pick(known).wrapping_add(1),
            2 => rng.pick(known).wrapping_sub(1),
            3 => rng.pick(known) | 0x100 << rng.below(24),
            _ => rng.below(256) as u32,
        };
        if !known.contains(&number) {
            return number;
        }
    }
}

/// What is lent to a call, as it was before it.
struct Bench {
    script: Vec<u8>,
    log: Lent,
    words: Vec<u64>,
    before: Vec<u64>,
}

impl Bench {
    fn new(rng: &mut Rng, length: usize) -> Bench {
        let script = (0..rng.below(12)).map(|_| rng.pick(&TELLING)).collect();
        let room = rng.below(24);
        let log = Lent::new(room, rng);
        let mut words = words::by_chance(rng);
        words.resize_with(length, || rng.next());
        Bench { script, log, before: words.clone(), words }
    }

    /// Whether a call answered this and left all that it was lent as it was.
    fn ended<T: Refusing + PartialEq + std::fmt::Debug>(
        self,
        name: &str,
        answer: T,
        expected: T,
    ) -> Result<(), String> {
        if answer != expected {
            return Err(format!("{name} answers {answer:?} and not {expected:?}"));
        }
        if let Some(wrong) = words::first_wrong(&self.before, &self.words) {
            return Err(format!("{name}: {wrong}"));
        }
        self.log.written(0).map(|_| ()).map_err(|wrong| format!("{name}: {wrong}"))
    }
}

fn refusing<T: Refusing>(mut zero: T, refusal: u32) -> T {
    *zero.refusal() = refusal;
    zero
}

fn table(rng: &mut Rng) -> [u32; 2] {
    match rng.below(3) {
        0 => [none_of(rng, &[1, 2]), rng.below(2) as u32],
        1 => [1 + rng.below(2) as u32, none_of(rng, &[0, 1])],
        _ => [none_of(rng, &[1, 2]), none_of(rng, &[0, 1])],
    }
}

/// A length about the right one, or any; where that is wanted, a wrong one.
fn length(rng: &mut Rng, right: usize, is_wrong: bool) -> usize {
    loop {
        let length = match rng.below(4) {
            0 => rng.below(300),
            1 => right - 1 + rng.below(3),
            2 => rng.pick(&[0, HANDLER_WORDS, DISPATCHER_WORDS]),
            _ => right,
        };
        if !is_wrong || length != right {
            return length;
        }
    }
}

/// How many kinds of such calls there are.
pub const KINDS: usize = 39;

pub fn check(kind: usize, port: &mut Port) -> Result<(), String> {
    let mut rng = port.rng.clone();
    port.rng.next();
    let rng = &mut rng;
    let identities = [0, 3, 4];
    // Of calls without a lent record, one of no numbers is lent.
    let plain = |rng: &mut Rng| Bench::new(rng, 0);
    macro_rules! on_ports {
        ($name:literal, $export:ident, $known:expr, $answer:ident) => {{
            let mut bench = plain(rng);
            let number = none_of(rng, &$known);
            let answer = port.note($name, vd::$export(number, &bench.script, &mut bench.log.bytes));
            bench.ended(&format!("{} {number}", $name), answer, refusing($answer::zero(), INVALID_ARGUMENT))
        }};
    }
    match kind {
        0 => on_ports!("vd_keyboard_command", keyboard_command, KEYBOARD_COMMANDS.map(u32::from), KeptWords),
        1 => on_ports!("vd_keyboard_set_lamps", keyboard_set_lamps, [0, 1, 2, 3, 4, 5, 6, 7], KeptWords),
        2 => on_ports!("vd_keyboard_set_scancode_set", keyboard_set_scancode_set, [1, 2, 3], PortWords),
        3 => on_ports!("vd_keyboard_set_repeat", keyboard_set_repeat, (0..=255).collect::<Vec<_>>(), PortWords),
        4 => on_ports!("vd_mouse_set_identity", mouse_set_identity, identities, PortWords),
        5 => on_ports!("vd_mouse_command", mouse_command, MOUSE_COMMANDS.map(u32::from), KeptWords),
        6 => on_ports!("vd_mouse_set_sampling_rate", mouse_set_sampling_rate, RATES.map(u32::from), PortWords),
        7 => on_ports!("vd_mouse_set_resolution", mouse_set_resolution, [0, 1, 2, 3], PortWords),
        8 => {
            let (bench, number) = (plain(rng), none_of(rng, &identities));
            let answer = port.note("vd_mouse_read_packet", vd::mouse_read_packet(number, &bench.script));
            bench.ended("vd_mouse_read_packet", answer, refusing(PacketWords::zero(), INVALID_ARGUMENT))
        }
        9 | 10 => {
            // The table is asked before the length.
            let is_table = kind == 10;
            let length = length(rng, HANDLER_WORDS, is_table);
            let mut bench = Bench::new(rng, length);
            let [keyboards, profile] =
                if is_table { [1 + rng.below(2) as u32, rng.below(2) as u32] } else { table(rng) };
            let answer = vd::keyboard_init(&mut bench.words, keyboards, profile, &bench.script, &mut bench.log.bytes);
            let answer = port.note("vd_keyboard_init", answer);
            let refusal = if is_table { MALFORMED } else { INVALID_ARGUMENT };
            bench.ended("vd_keyboard_init", answer, refusing(PortWords::zero(), refusal))
        }
        11 | 12 => {
            let is_table = kind == 12;
            let length = length(rng, HANDLER_WORDS, is_table);
            let mut bench = Bench::new(rng, length);
            let [keyboards, profile] =
                if is_table { [1 + rng.below(2) as u32, rng.below(2) as u32] } else { table(rng) };
            let answer = port.note("vd_handler_fresh", vd::handler_fresh(&mut bench.words, keyboards, profile));
            bench.ended("vd_handler_fresh", answer, if is_table { MALFORMED } else { INVALID_ARGUMENT })
        }
        13 | 14 => {
            let is_table = kind == 14;
            let length = length(rng, DISPATCHER_WORDS, is_table);
            let mut bench = Bench::new(rng, length);
            let [mut keyboards, mut profile, mut identity] =
                [1 + rng.below(2) as u32, rng.below(2) as u32, rng.pick(&identities)];
            if !is_table && rng.once_in(2) {
                identity = none_of(rng, &identities);
            } else if !is_table {
                [keyboards, profile] = table(rng);
            }
            let answer = vd::dispatcher_fresh(&mut bench.words, keyboards, profile, identity);
            let answer = port.note("vd_dispatcher_fresh", answer);
            bench.ended("vd_dispatcher_fresh", answer, if is_table { MALFORMED } else { INVALID_ARGUMENT })
        }
        15 | 16 => {
            // The side is asked before the length.
            let is_side = kind == 16;
            let length = length(rng, HANDLER_WORDS, is_side);
            let mut bench = Bench::new(rng, length);
            let side = if is_side { 1 + rng.below(2) as u32 } else { none_of(rng, &[1, 2]) };
            let (name, handle) = rng.pick(&HANDLINGS);
            let answer = port.note(name, handle(&mut bench.words, side, &bench.script, &mut bench.log.bytes));
            let refusal = if is_side { MALFORMED } else { INVALID_ARGUMENT };
            bench.ended(name, answer, refusing(HandledWords::zero(), refusal))
        }
        17 => {
            let length = length(rng, HANDLER_WORDS, true);
            let mut bench = Bench::new(rng, length);
            let (name, take) = rng.pick(&TAKINGS);
            let answer = port.note(name, take(&mut bench.words));
            bench.ended(name, answer, refusing(TakenWords::zero(), MALFORMED))
        }
        18 => {
            let length = length(rng, DISPATCHER_WORDS, true);
            let mut bench = Bench::new(rng, length);
            let scripts = [&bench.script[..], &[0x1E], &[8, 1, 2, 3]];
            let answer =
                vd::dispatcher_step(&mut bench.words, scripts[0], scripts[1], scripts[2], &mut bench.log.bytes);
            let answer = port.note("vd_dispatcher_step", answer);
            bench.ended("vd_dispatcher_step", answer, refusing(StepWords::zero(), MALFORMED))
        }
        // A number that no record can hold, whichever of its bits says so, is malformed for a taking, for a handler call, and for a step.
        19..=21 => {
            let length = if kind == 21 { DISPATCHER_WORDS } else { HANDLER_WORDS };
            let mut bench = Bench::new(rng, length);
            words::make_formed(&mut bench.words);
            match kind {
                21 => words::malform_dispatcher(&mut bench.words, rng),
                _ => words::malform(&mut bench.words, rng),
            }
            bench.before.clone_from(&bench.words);
            match kind {
                19 => {
                    let answer = port.note("vd_take", vd::take(&mut bench.words));
                    port.taken_alike(&bench.before, answer, &bench.words)?;
                    bench.ended("vd_take", answer, refusing(TakenWords::zero(), MALFORMED))
                }
                20 => {
                    let (side, lent) = (1 + rng.below(2) as u32, bench.log.again());
                    let answer = vd::handle(&mut bench.words, side, &bench.script, &mut bench.log.bytes);
                    let answer = port.note("vd_handle", answer);
                    let came = (answer, &bench.words[..], &bench.log.bytes[..]);
                    port.handled_alike(side, (&bench.before, lent), &bench.script, came)?;
                    bench.ended("vd_handle", answer, refusing(HandledWords::zero(), MALFORMED))
                }
                _ => {
                    let scripts = [&bench.script[..], &[0x1E], &[8, 1, 2, 3]];
                    let answer =
                        vd::dispatcher_step(&mut bench.words, scripts[0], scripts[1], scripts[2], &mut bench.log.bytes);
                    let answer = port.note("vd_dispatcher_step", answer);
                    bench.ended("vd_dispatcher_step", answer, refusing(StepWords::zero(), MALFORMED))
                }
            }
        }
        22 => {
            let keycodes: Vec<u32> = (0..=LAST_KEYCODE).chain(RELEASE_KEYCODES).map(u32::from).collect();
            let is_flags = rng.once_in(2);
            let keycode = if is_flags { rng.pick(&keycodes) } else { none_of(rng, &keycodes) };
            let flags = if is_flags { rng.next() as u32 | 0x10000 << rng.below(16) } else { rng.next() as u16 as u32 };
            let answer = port.note("vd_character", vd::character(keycode, flags));
            plain(rng).ended(&format!("vd_character {keycode} {flags}"), answer, INVALID_ARGUMENT)
        }
        23 => {
            let keycodes: Vec<u32> = (0..=LAST_KEYCODE).chain(RELEASE_KEYCODES).map(u32::from).collect();
            let is_action = rng.once_in(2);
            let keycode = if is_action { rng.pick(&keycodes) } else { none_of(rng, &keycodes) };
            let action = if is_action { none_of(rng, &[0, 1]) } else { rng.below(2) as u32 };
            let answer = port.note("vd_event_code", vd::event_code(keycode, action));
            plain(rng).ended(&format!("vd_event_code {keycode} {action}"), answer, INVALID_ARGUMENT)
        }
        24 => {
            let mut bench = Bench::new(rng, 20);
            let number = none_of(rng, &identities);
            let answer = vd::salvage(number, &bench.script, &mut bench.log.bytes, &mut bench.words);
            let answer = port.note("vd_salvage", answer);
            bench.ended("vd_salvage", answer, refusing(SalvagedWords::zero(), INVALID_ARGUMENT))
        }
        25 => {
            let mut bench = plain(rng);
            let version = none_of(rng, &[1, 2]);
            let preferences = PreferencesWords { version, set: 1, rate: 100, resolution: 3, lamps: 7, repeat: 0 };
            if rng.once_in(2) {
                let answer = vd::preferences_write(preferences, &mut bench.log.bytes);
                let answer = port.note("vd_preferences_write", answer);
                return bench.ended("vd_preferences_write", answer, refusing(WrittenWords::zero(), INVALID_ARGUMENT));
            }
            let answer = vd::preferences_apply(preferences, &bench.script, &mut bench.log.bytes);
            let answer = port.note("vd_preferences_apply", answer);
            bench.ended("vd_preferences_apply", answer, refusing(PortWords::zero(), INVALID_ARGUMENT))
        }
        26 => {
            let (bench, number) = (plain(rng), none_of(rng, &identities));
            let report = Report { presses: [rng.next() as u32; KEYS], packets: rng.next() as u32, x: 1, y: -1 };
            let answer = vd::report_add(report, number, &bench.script, &bench.script);
            let answer = port.note("vd_report_add", answer);
            bench.ended("vd_report_add", answer, ReportAddedWords { refusal: INVALID_ARGUMENT, report })
        }
        28 => on_ports!("vdt_polling_send", polling_send, [0, 1, 2, 3], PortWords),
        29 => on_ports!("vdt_keyboard_set_scancode_set", keyboard_set_any_set, [0, 1, 2, 3], PortWords),
        30 => on_ports!("vdt_keyboard_data_set", keyboard_data_set, [0, 1, 2, 3], KeptWords),
        31 => on_ports!("vdt_keyboard_data_lamps", keyboard_data_lamps, [0, 1, 2, 3, 4, 5, 6, 7], KeptWords),
        32 => on_ports!("vdt_mouse_data_rate", mouse_data_rate, RATES.map(u32::from), KeptWords),
        33 => on_ports!("vdt_mouse_data_resolution", mouse_data_resolution, [0, 1, 2, 3], KeptWords),
        34 => {
            let (bench, number) = (plain(rng), none_of(rng, &identities));
            let answer = port.note("vdt_mouse_read_packet", vd::mouse_read_rust_packet(number, &bench.script));
            bench.ended("vdt_mouse_read_packet", answer, refusing(RustPacketWords::zero(), INVALID_ARGUMENT))
        }
        // A byte at a time: operation and argument are asked before the length.
        35 | 36 => {
            let length = length(rng, STEP_WORDS, false);
            let mut bench = Bench::new(rng, length);
            let known: Vec<u32> = (1..=operation::LAST).collect();
            let (told, argument) = if kind == 35 {
                (none_of(rng, &known), rng.below(4) as u64)
            } else {
                let arguments = [
                    (operation::CONTROLLER_INIT, (0..8).collect()),
                    (operation::KEYBOARD_RESET, vec![0]),
                    (operation::KEYBOARD_COMMAND, KEYBOARD_COMMANDS.map(u32::from).to_vec()),
                    (operation::KEYBOARD_LAMPS, (0..8).collect()),
                    (operation::KEYBOARD_SET_SCANCODE_SET, vec![1, 2, 3]),
                    (operation::KEYBOARD_REPEAT, (0..256).collect()),
                    (operation::MOUSE_SET_IDENTITY, identities.to_vec()),
                    (operation::MOUSE_READ_PACKET, identities.to_vec()),
                    (operation::MOUSE_COMMAND, MOUSE_COMMANDS.map(u32::from).to_vec()),
                    (operation::MOUSE_SAMPLING_RATE, RATES.map(u32::from).to_vec()),
                    (operation::MOUSE_RESOLUTION, (0..4).collect()),
                ];
                let (told, meant) = &arguments[rng.below(arguments.len())];
                // A number that is meant, with a bit above its 32, is not.
                let wide = u64::from(rng.pick(meant)) | 1 << (32 + rng.below(32));
                (*told, if rng.once_in(4) { wide } else { none_of(rng, meant).into() })
            };
            let answer = port.note("vd_begin", vd::begin(&mut bench.words, told, argument));
            bench.ended(&format!("vd_begin {told} {argument}"), answer, refusing(RequestWords::zero(), INVALID_ARGUMENT))
        }
        37 => {
            let length = length(rng, STEP_WORDS, true);
            let mut bench = Bench::new(rng, length);
            let answer = port.note("vd_begin", vd::begin(&mut bench.words, operation::KEYBOARD_LAMPS, 1));
            bench.ended("vd_begin", answer, refusing(RequestWords::zero(), MALFORMED))
        }
        // Numbers by chance are no operation's, nor are those of one that has another length; 256 is no byte.
        38 => {
            let mut bench = Bench::new(rng, STEP_WORDS);
            let (is_begun, is_byte) = (rng.once_in(2), rng.once_in(2));
            if is_begun {
                vd::begin(&mut bench.words, operation::KEYBOARD_LAMPS, 4);
                if is_byte {
                    bench.words.pop();
                }
                bench.before.clone_from(&bench.words);
            }
            let byte = if is_byte { rng.below(256) as u32 } else { none_of(rng, &(0..256).collect::<Vec<_>>()) };
            let refusal = if is_byte { MALFORMED } else { INVALID_ARGUMENT };
            if is_byte {
                let wanted = port.note("vd_wanted", vd::wanted(&bench.words));
                let kept = port.note("vd_step_kept", vd::step_kept(&bench.words));
                if (wanted, kept) != (refusing(RequestWords::zero(), refusal), refusing(KeptWords::zero(), refusal)) {
                    return Err(format!("numbers that are no operation's: {wanted:?} and {kept:?}"));
                }
            }
            let answer = port.note("vd_next", vd::next(&mut bench.words, byte));
            bench.ended(&format!("vd_next {byte}"), answer, refusing(RequestWords::zero(), refusal))
        }
        _ => {
            let (bench, number) = (plain(rng), none_of(rng, &identities));
            let report = LongReport { presses: [rng.next(); KEYS], packets: rng.next(), x: 1, y: -1 };
            let answer = vd::long_report_add(report, number, &bench.script, &bench.script);
            let answer = port.note("vd_long_report_add", answer);
            bench.ended("vd_long_report_add", answer, LongAddedWords { refusal: INVALID_ARGUMENT, report })
        }
    }
}
