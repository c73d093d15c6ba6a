//! Rows of the operations on bytes, of the reports and of the ports, and of what a table does all
//! day.

use crate::handler::made;
use crate::measure::{Row, Side};
use beside::answer::Answer;
use beside::by_bytes::{operation, through};
use beside::call::{self, Call, Hex, Op, ALL_FLAGS, LAST_KEYCODE, PORT_FLAGS};
use beside::device::Rng;
use beside::library::{self as vd, ControllerWords, PreferencesWords};
use beside::oracle::{to_flags, Oracle};
use beside::{plain, plain_report, plain_salvage};
use keycodes_ascii::{KeyboardModifiers, Keycode};
use std::cell::RefCell;
use std::hint::black_box;
use std::rc::Rc;

/// About so many bytes of set 2: letters pressed and released, one in eight with Shift, and the
/// cursor keys as often.
fn set2_keys(count: usize) -> Vec<u8> {
    const LETTERS: [u8; 26] = [
        0x1C, 0x32, 0x21, 0x23, 0x24, 0x2B, 0x34, 0x33, 0x43, 0x3B, 0x42, 0x4B, 0x3A, 0x31, 0x44,
        0x4D, 0x15, 0x2D, 0x1B, 0x2C, 0x3C, 0x2A, 0x1D, 0x22, 0x35, 0x1A,
    ];
    let (mut rng, mut stream) = (Rng(1), Vec::new());
    while stream.len() < count {
        let letter = rng.pick(&LETTERS);
        match rng.below(8) {
            0 => stream.extend([0x12, letter, 0xF0, letter, 0xF0, 0x12]),
            1 => stream.extend([0xE0, 0x75, 0xE0, 0xF0, 0x75]),
            _ => stream.extend([letter, 0xF0, letter]),
        }
    }
    stream
}

/// The conversion of about so many bytes of set 2, with room for all.
pub fn conversion(count: usize) -> String {
    let stream = set2_keys(count);
    format!("convert_set2 in={} room={}", Hex(&stream), stream.len())
}

/// The typing of so many characters, with room for all: small letters and spaces, one in eight a
/// capital.
pub fn typing(count: usize) -> String {
    let mut rng = Rng(1);
    let text: Vec<u8> = (0..count)
        .map(|_| match rng.below(8) {
            0 => b'A' + rng.below(26) as u8,
            1 => b' ',
            _ => b'a' + rng.below(26) as u8,
        })
        .collect();
    format!("type_text in={} room={}", Hex(&text), 4 * text.len())
}

pub fn bytes(rng: &mut Rng, count: usize) -> Vec<u8> {
    (0..count).map(|_| rng.next() as u8).collect()
}

/// A mouse's packets, of whose bytes one in a thousand was lost.
pub fn loose_plug(id: u8, length: usize) -> Vec<u8> {
    let others = if id == 0 { 2 } else { 3 };
    let (mut rng, mut recording) = (Rng(1), Vec::with_capacity(length + 4));
    while recording.len() < length {
        let first = rng.next() as u8 & 0x3F | 8;
        for byte in [first].into_iter().chain(bytes(&mut rng, others)) {
            if !rng.once_in(1000) {
                recording.push(byte);
            }
        }
    }
    recording.truncate(length);
    recording
}

fn preferences(call: &Call) -> PreferencesWords {
    let Op::WritePreferences(told) = &call.op else { return vd::Zero::zero() };
    let field = |i: usize| told.fields.get(i).copied().unwrap_or(0);
    let [set, rate, resolution, lamps, repeat] = [0, 1, 2, 3, 4].map(field);
    PreferencesWords { version: told.version as u32, set, rate, resolution, lamps, repeat }
}

/// The export's refusal and the bytes that it wrote.
fn made_bytes(call: &Call, out: &mut [u8]) -> (u32, usize) {
    match &call.op {
        Op::ConvertSet2 => {
            let answer = vd::convert_set2(&call.script, out);
            (answer.refusal, answer.written)
        }
        Op::TypeText => {
            let answer = vd::type_text(&call.script, out);
            (answer.refusal, answer.written)
        }
        Op::WritePreferences(_) => {
            let answer = vd::preferences_write(preferences(call), out);
            (answer.refusal, answer.written)
        }
        Op::ReadPreferences(1) => (vd::preferences_read_1(&call.script).refusal, 0),
        Op::ReadPreferences(_) => (vd::preferences_read_2(&call.script).refusal, 0),
        op => unreachable!("{} is not measured", op.name()),
    }
}

fn check_bytes(call: &Call) {
    let mut out = vec![0; call.room];
    let (refusal, written) = made_bytes(call, &mut out);
    out.truncate(written);
    match plain::answer(call) {
        Answer::Bytes { end, bytes, .. } => assert_eq!((refusal, out), (end as u32, bytes)),
        Answer::Fields(read) => assert_eq!(refusal, read.end as u32),
        _ => unreachable!(),
    }
}

/// So many calls of an export on lent bytes.
fn repeat_bytes(call: &Call, out: &mut [u8], times: usize) {
    let script = &call.script[..];
    let record = preferences(call);
    let times = 0..times;
    match &call.op {
        Op::ConvertSet2 => {
            times.for_each(|_| made!(vd::convert_set2(black_box(script), black_box(out))))
        }
        Op::TypeText => times.for_each(|_| made!(vd::type_text(black_box(script), black_box(out)))),
        Op::WritePreferences(_) => {
            times.for_each(|_| made!(vd::preferences_write(black_box(record), black_box(out))))
        }
        Op::ReadPreferences(1) => {
            times.for_each(|_| made!(vd::preferences_read_1(black_box(script))))
        }
        _ => times.for_each(|_| made!(vd::preferences_read_2(black_box(script)))),
    }
}

/// An operation on lent bytes, by its line, next to plain Rust for the same job.
pub fn on_bytes(name: &str, line: &str, contents: &str) -> Row {
    let call = Rc::new(call::parse(line).expect("a good line"));
    check_bytes(&call);
    let times = (50_000 / (call.script.len() + 25)).max(1);
    let (theirs, ours) = (call.clone(), call);
    let mut out = vec![0; ours.room];
    let sides = [
        Side::of(move || plain::repeat_called(&theirs, times as u64)),
        Side::of(move || repeat_bytes(&ours, &mut out, times)),
    ];
    Row { name: name.to_string(), contents: contents.to_string(), times, sides }
}

pub fn salvage(name: &str, id: u8, recording: Vec<u8>, contents: &str) -> Row {
    let recording = Rc::new(recording);
    let outputs = || (vec![0; recording.len()], vec![0; recording.len()]);
    let ((mut packets, mut positions), (mut their_packets, mut their_positions)) =
        (outputs(), outputs());
    let ours = vd::salvage(id as u32, &recording, &mut packets, &mut positions);
    let theirs = plain_salvage::salvage(id, &recording, &mut their_packets, &mut their_positions);
    let counts = (ours.refusal as u64, ours.used, ours.packet_bytes, ours.dropped);
    assert_eq!(counts, (theirs.number, theirs.used, theirs.packet_bytes, theirs.dropped), "{name}");
    assert!(packets == their_packets && positions == their_positions, "{name}");
    let times = (1_000_000 / recording.len()).max(1);
    let (one, two) = (recording.clone(), recording);
    let sides = [
        Side::of(move || {
            (0..times).for_each(|_| {
                made!(plain_salvage::salvage(
                    id,
                    black_box(&one),
                    &mut their_packets,
                    &mut their_positions
                ))
            })
        }),
        Side::of(move || {
            (0..times).for_each(|_| {
                made!(vd::salvage(id as u32, black_box(&two), &mut packets, &mut positions))
            })
        }),
    ];
    Row { name: name.to_string(), contents: contents.to_string(), times, sides }
}

/// The row of which docs/PERFORMANCE.md tells packets in a second.
pub const PACKETS: &str = "packet of a recorded session, `vd_salvage` and `vd_report_add`";

/// A recording is salvaged, and its packets are added to a fresh report: what a packet takes.
fn recorded_session() -> Row {
    let recording = Rc::new(loose_plug(0, 300_000));
    let outputs = || (vec![0; recording.len()], vec![0; recording.len()]);
    let ((mut packets, mut positions), (mut their_packets, mut their_positions)) =
        (outputs(), outputs());
    let written = vd::salvage(0, &recording, &mut packets, &mut positions).packet_bytes;
    let (one, two) = (recording.clone(), recording);
    let sides = [
        Side::of(move || {
            let salvaged = plain_salvage::salvage(
                0,
                black_box(&one),
                &mut their_packets,
                &mut their_positions,
            );
            made!(plain_report::report(0, &[], &their_packets[..salvaged.packet_bytes]));
        }),
        Side::of(move || {
            let salvaged = vd::salvage(0, black_box(&two), &mut packets, &mut positions);
            made!(vd::report_add(vd::report_empty(), 0, &[], &packets[..salvaged.packet_bytes]));
        }),
    ];
    let contents = "a recording of 300,000 bytes at identity 0, of which one in a thousand was \
        lost; next to plain Rust for the same job";
    Row { name: PACKETS.to_string(), contents: contents.to_string(), times: written / 3, sides }
}

/// A session of so many packets and a tenth as many events, added to a fresh report.
pub fn session(name: &str, id: u8, packets: usize, contents: &str) -> Row {
    let mut rng = Rng(3);
    let events = Rc::new(bytes(&mut rng, packets / 1000));
    let mouse = Rc::new(bytes(&mut rng, packets * if id == 0 { 3 } else { 4 }));
    let theirs = plain_report::report(id, &events, &mouse);
    let ours = vd::report_add(vd::report_empty(), id as u32, &events, &mouse);
    let counts = (ours.refusal, ours.report.packets, ours.report.x, ours.report.y);
    assert_eq!(counts, (theirs.number, theirs.packets, theirs.x, theirs.y), "{name}");
    let times = (300_000 / packets).max(1);
    let (one, two) = ((events.clone(), mouse.clone()), (events, mouse));
    let sides = [
        Side::of(move || {
            let (events, mouse) = &one;
            (0..times)
                .for_each(|_| made!(plain_report::report(id, black_box(events), black_box(mouse))))
        }),
        Side::of(move || {
            let (events, mouse) = &two;
            (0..times).for_each(|_| {
                made!(vd::report_add(
                    vd::report_empty(),
                    id as u32,
                    black_box(events),
                    black_box(mouse)
                ))
            })
        }),
    ];
    Row { name: name.to_string(), contents: contents.to_string(), times, sides }
}

/// The Rust's `to_ascii`, asked of numbers as C asks `vd_character`: 255 where one stands for
/// nothing.
#[inline(never)]
fn their_character(keycode: u32, flags: u32) -> u32 {
    let (Ok(byte), Ok(bits)) = (u8::try_from(keycode), u16::try_from(flags)) else { return 255 };
    let Ok(key) = Keycode::try_from(byte) else { return 255 };
    // The Rust's flags are eleven bits, in an order of their own.
    let held = unsafe { std::mem::transmute::<u16, KeyboardModifiers>(bits) };
    key.to_ascii(held).map_or(0, u32::from)
}

fn characters() -> Row {
    fn each(character: fn(u32, u32) -> u32) -> impl FnMut() {
        move || {
            for keycode in 0..=u32::from(LAST_KEYCODE) {
                (0..=u32::from(PORT_FLAGS))
                    .for_each(|flags| made!(character(black_box(keycode), black_box(flags))));
            }
        }
    }
    for keycode in 0..=LAST_KEYCODE {
        for flags in 0..=ALL_FLAGS {
            let theirs =
                Keycode::try_from(keycode).ok().and_then(|key| key.to_ascii(to_flags(flags)));
            assert_eq!(
                vd::character(keycode.into(), flags.into()),
                theirs.map_or(0, u32::from),
                "{keycode} {flags}"
            );
        }
    }
    let sides = [Side::of(each(their_character)), Side::of(each(vd::character))];
    let contents = "the mean over the 94 keycodes that events have and all flags; the Rust's \
        `to_ascii`, with the same questions about the two numbers";
    let times = (usize::from(LAST_KEYCODE) + 1) * (usize::from(PORT_FLAGS) + 1);
    Row { name: "`vd_character`".to_string(), contents: contents.to_string(), times, sides }
}

/// An operation on the ports, by its line, and the export that makes it.
pub fn on_ports(
    oracle: &Rc<RefCell<Oracle>>,
    name: &str,
    line: &str,
    contents: &str,
    mut export: impl FnMut(&[u8], &mut [u8]) -> (u32, usize, usize) + 'static,
) -> Row {
    let call = Rc::new(call::parse(line).expect("a good line"));
    let answer = oracle.borrow_mut().answer(&call);
    let mut log = vec![0; call.room];
    let (refusal, used, pairs) = export(&call.script, &mut log);
    log.truncate(2 * pairs);
    match answer {
        Answer::Call { end, used: their_used, log: their_log, .. } => {
            assert_eq!((refusal, used, log), (end as u32, their_used, their_log), "{name}")
        }
        _ => unreachable!(),
    }
    let times = (20_000 / used).max(1);
    let (theirs, ours, oracle) = (call.clone(), call, oracle.clone());
    let mut log = vec![0; ours.room];
    let sides = [
        Side::of(move || oracle.borrow_mut().repeat(&theirs, times as u64)),
        Side::of(move || {
            (0..times).for_each(|_| made!(export(black_box(&ours.script), black_box(&mut log))))
        }),
    ];
    Row { name: name.to_string(), contents: contents.to_string(), times, sides }
}

/// A device that acknowledges the command after so many polls.
pub fn late_device(polls: usize) -> String {
    format!("keyboard_command ED script=1C*{},01FA log=8", polls + 1)
}

pub fn led_command(script: &[u8], log: &mut [u8]) -> (u32, usize, usize) {
    let answer = vd::keyboard_command(0xED, script, log);
    (answer.refusal, answer.used, answer.pairs)
}

/// The same a byte at a time.
fn led_by_bytes(script: &[u8], log: &mut [u8]) -> (u32, usize, usize) {
    through(operation::KEYBOARD_COMMAND, 0xED, script, log)
}

/// The lamps of a keyboard that acknowledges at once.
const LAMPS: &str = "set_keyboard_led 4 script=0001FA0001FA log=8";

/// Initialisation on the script of a machine with both devices.
const INIT: &str = "init script=0333551D001D001C1DFAAA1C3DFAAA0003 log=64";

fn ports() -> Vec<Row> {
    let oracle = Rc::new(RefCell::new(Oracle::new()));
    // A whole command of 525,300 reads: each of four attempts waits 254 times, then gets 55 at
    // 65,534 polls, and FE.
    let prattling =
        format!("keyboard_command ED script={} log=8", ["02*254,00,0155*65534,01FE"; 4].join(","));
    let none = ControllerWords { initialized: 0, keyboard: 0, mouse: 0 };
    vec![
        on_ports(
            &oracle,
            "`vd_keyboard_command` ED, a silent device",
            "keyboard_command ED script=1C*65536 log=8",
            "65,536 status reads, the first before the byte, and 1 write; refused 5",
            led_command,
        ),
        on_ports(
            &oracle,
            "`vd_keyboard_command` ED, a device that sends 55",
            &prattling,
            "525,300 reads and 4 writes: four attempts, each busy 254 times, then 55 at 65,534 \
            polls, then FE; refused 7",
            led_command,
        ),
        on_ports(
            &oracle,
            "`vd_keyboard_set_lamps`, a willing keyboard",
            LAMPS,
            "6 reads and 2 writes",
            |script, log| {
                let answer = vd::keyboard_set_lamps(4, script, log);
                (answer.refusal, answer.used, answer.pairs)
            },
        ),
        on_ports(
            &oracle,
            "`vd_next`, the lamps, a willing keyboard",
            LAMPS,
            "the same a byte at a time",
            |script, log| through(operation::KEYBOARD_LAMPS, 4, script, log),
        ),
        on_ports(
            &oracle,
            "`vd_next`, command ED, a silent device",
            "keyboard_command ED script=1C*65536 log=8",
            "65,536 reads and 1 write, a byte at a time; refused 5",
            led_by_bytes,
        ),
        on_ports(
            &oracle,
            "`vd_next`, command ED, a device stuck full",
            "keyboard_command ED script=01,0155*65535 log=8",
            "131,071 reads and 1 write: each poll finds 55; refused 5",
            led_by_bytes,
        ),
        on_ports(
            &oracle,
            "`vd_next`, command ED, a device that sends 55",
            &prattling,
            "525,300 reads and 4 writes, the longest; refused 7",
            led_by_bytes,
        ),
        on_ports(
            &oracle,
            "`vd_controller_init`, a recorded script",
            INIT,
            "17 reads and 18 writes",
            move |script, log| {
                let answer = vd::controller_init(none, script, log);
                (answer.refusal, answer.used, answer.pairs)
            },
        ),
        on_ports(
            &oracle,
            "read the configuration",
            "read_config script=03 log=2",
            "a write and a read: the least call, so the most that a loop adds to a call",
            |script, log| {
                let answer = vd::configuration_read(script, log);
                (answer.refusal, answer.used, answer.pairs)
            },
        ),
    ]
}

pub fn rows() -> Vec<Row> {
    let plain = "next to plain Rust for the same job";
    let convert = "letters pressed and released, one in eight with Shift, and as many cursor \
        keys; next to plain Rust for the same job";
    let typed =
        "small letters and spaces, one in eight a capital; next to plain Rust for the same job";
    let loose =
        "packets of whose bytes one in a thousand was lost; next to plain Rust for the same job";
    let mut rows = vec![
        characters(),
        on_bytes("`vd_convert_set2`, 60,000 bytes", &conversion(60000), convert),
        on_bytes("`vd_convert_set2`, 600 bytes", &conversion(600), "the same, shorter"),
        on_bytes("`vd_convert_set2`, 6 bytes", &conversion(6), "the same, two keys"),
        on_bytes("`vd_type_text`, 16,000 characters", &typing(16000), typed),
        on_bytes("`vd_type_text`, 160 characters", &typing(160), "the same, shorter"),
        on_bytes("`vd_type_text`, 2 characters", &typing(2), "the same, shorter"),
        on_bytes("`vd_preferences_write`, version 1", "prefs_write 1 2,100,3,5 room=9", plain),
        on_bytes("`vd_preferences_write`, version 2", "prefs_write 2 2,200,3,5,43 room=9", plain),
        on_bytes("`vd_preferences_read_1`, version 1", "prefs_read1 in=010402640305", plain),
        on_bytes("`vd_preferences_read_2`, version 2", "prefs_read2 in=020502C80103052B", plain),
        salvage("`vd_salvage` at identity 0, 1,000,000 bytes", 0, loose_plug(0, 1_000_000), loose),
        salvage("`vd_salvage` at identity 4, 1,000,000 bytes", 4, loose_plug(4, 1_000_000), loose),
        salvage(
            "`vd_salvage` at identity 0, 1,000,000 bytes by chance",
            0,
            bytes(&mut Rng(2), 1_000_000),
            "every second byte at a packet's start is dropped",
        ),
        session(
            "`vd_report_add` at identity 0",
            0,
            100_000,
            "a session of 100,000 packets and \
            100 events, bytes by chance, added to a fresh report; next to plain Rust for the same \
            job",
        ),
        session("`vd_report_add` at identity 4", 4, 100_000, "the same"),
    ];
    rows.push(recorded_session());
    rows.extend(ports());
    rows
}
