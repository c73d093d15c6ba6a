//! Calls by chance that the Rust hasn't: records of two keyboards, with bytes that wait and malformed ones, lent bytes, preferences,
//! reports, a dispatcher's steps.

use crate::call::*;
use crate::device::{Rng, TELLING};
use crate::dispatch::{Dispatch, Move};
use crate::prefs_apply::Preferences;
use crate::report::{Numbers, Season, Session, Width, KEYS, LONG, NARROW};
use crate::salvage::Salvage;
use crate::words;

/// Makes a call's operation, script and room.
type Make = fn(&mut Rng) -> Call;

/// Each kind of call, with how often it comes.
pub const KINDS: [(Make, usize); 18] = [
    (handle, 20),
    (dispatch, 6),
    (begin_dispatch, 2),
    (keyboard_init, 1),
    (to_ascii, 1),
    (convert_set2, 3),
    (type_text, 2),
    (salvage, 3),
    (write_preferences, 2),
    (read_preferences, 3),
    (apply_preferences, 3),
    (|rng| season(rng, &NARROW, false), 2),
    (|rng| season(rng, &LONG, false), 2),
    (|rng| season(rng, &NARROW, true), 1),
    (|rng| begin_season(rng, &NARROW), 1),
    (|rng| begin_season(rng, &LONG), 1),
    (read_packet, 1),
    (reset_mouse_identity, 1),
];

fn call(op: Op, script: Vec<u8>, room: usize) -> Call {
    Call { op, script, script2: None, room, repeat: 1 }
}

fn bytes(rng: &mut Rng, count: usize) -> Vec<u8> {
    (0..count).map(|_| rng.next() as u8).collect()
}

/// Cuts, lengthens or changes bytes, more often not.
fn damage(bytes: &mut Vec<u8>, rng: &mut Rng) {
    let length = bytes.len();
    match rng.below(16) {
        0..=1 => bytes.truncate(rng.below(length + 1)),
        2 => bytes.extend((0..rng.below(6)).map(|_| rng.pick(&TELLING))),
        3..=4 if length > 0 => bytes[rng.below(length)] = rng.pick(&TELLING),
        5 if length > 0 => bytes[rng.below(length)] = rng.next() as u8,
        6 if length > 0 => drop(bytes.remove(rng.below(length))),
        7 => bytes.insert(rng.below(length + 1), rng.pick(&TELLING)),
        _ => {}
    }
}

/// What a device answers to a byte: the status before it, polls and bytes that are thrown away, and a response.
fn exchange(script: &mut Vec<u8>, rng: &mut Rng) {
    for _ in 0..rng.below(3) * rng.below(2) {
        script.push(0x02);
    }
    script.push(rng.pick(&[0x00, 0x00, 0x1C, 0x14]));
    for _ in 0..rng.below(3) * rng.below(3) {
        script.extend([0x01, rng.pick(&[0x1E, 0x9E, 0xE0, 0x2A, 0xAA, 0x55, 0x3A])]);
    }
    for _ in 0..rng.below(3) * rng.below(2) {
        script.push(rng.pick(&[0x00, 0x1C]));
    }
    script.extend([0x01, if rng.once_in(8) { rng.pick(&[0xFE, 0xFC, 0xFD, 0x00, 0xFF, 0xAA]) } else { 0xFA }]);
}

/// What a keyboard's handler calls read: scancodes, and behind a lock what the lamp exchange reads.
pub fn keys(rng: &mut Rng, count: usize) -> Vec<u8> {
    const LOCKS: [u8; 3] = [0x3A, 0x45, 0x46];
    let mut script = Vec::new();
    for _ in 0..count {
        match rng.below(8) {
            0 => {
                script.push(rng.pick(&LOCKS));
                let twice = if rng.once_in(8) { rng.below(6) } else { 2 };
                (0..twice).for_each(|_| exchange(&mut script, rng));
            }
            1 => script.push(rng.next() as u8),
            2 => script.extend([0xE0, rng.pick(&[0x1D, 0x9D, 0x38, 0xB8, 0x48, 0xC8, 0x5B, 0x2A])]),
            3 => script.push(rng.pick(&[0x2A, 0xAA, 0x36, 0xB6, 0x1D, 0x9D, 0x38, 0xB8])),
            _ => script.push(1 + rng.below(0x5D) as u8 | (rng.below(2) as u8) << 7),
        }
    }
    damage(&mut script, rng);
    script
}

fn event(rng: &mut Rng, two: bool) -> KeyEvent {
    KeyEvent {
        keycode: if rng.once_in(16) { rng.pick(&RELEASE_KEYCODES) } else { rng.below(LAST_KEYCODE as usize + 1) as u8 },
        released: rng.once_in(2),
        flags: if rng.once_in(8) { rng.next() as u16 } else { rng.below(PORT_FLAGS as usize + 1) as u16 },
        side: if two && rng.once_in(2) || rng.once_in(16) { Side::Second } else { Side::First },
    }
}

fn remembered(rng: &mut Rng) -> Remembered {
    let flags = match rng.below(32) {
        0 => rng.next() as u16,
        1 => PORT_FLAGS + 1,
        2..=15 => 0,
        _ => rng.below(PORT_FLAGS as usize + 1) as u16,
    };
    let mut kept = Vec::new();
    if rng.once_in(3) {
        let count = if rng.once_in(3) { WAITING_PLACES } else { rng.below(WAITING_PLACES + 1) };
        kept = keys(rng, count);
        kept.resize(count, 0x1E);
    }
    let waits = (kept.len() == WAITING_PLACES && rng.once_in(4)).then(|| 17 + rng.below(239) as u64);
    Remembered { ext: rng.once_in(4), flags, kept, waits }
}

fn handler(rng: &mut Rng) -> Handler {
    // One that numbers by chance stand for.
    if rng.once_in(4) {
        return words::record_of(&words::by_chance(rng));
    }
    let two = !rng.once_in(3);
    let rated = rng.once_in(4);
    if rng.once_in(8) {
        return Handler { two, rated, ..Handler::default() };
    }
    let count = match rng.below(16) {
        0 => rng.below(QUEUE_PLACES + 1),
        1 => QUEUE_PLACES - rng.below(4),
        2 => SHARE - 2 + rng.below(4),
        3..=6 => rng.below(6),
        _ => 0,
    };
    let mut queue: Vec<KeyEvent> = match rng.once_in(2) {
        true => (0..count).map(|_| event(rng, two)).collect(),
        false => vec![event(rng, two); count],
    };
    // About the share of a side.
    if count > SHARE && rng.once_in(2) {
        let (most, few) = if rng.once_in(2) { (Side::First, Side::Second) } else { (Side::Second, Side::First) };
        queue.iter_mut().enumerate().for_each(|(i, event)| event.side = if i < SHARE { most } else { few });
    }
    let malformed =
        (queue.len() == QUEUE_PLACES && rng.once_in(4)).then(|| QUEUE_PLACES as u64 + 1 + (rng.next() >> rng.below(64)) / 2);
    let start = match rng.below(24) {
        0 => 127 + rng.below(3) as u64,
        1 => rng.next() >> rng.below(64),
        2..=11 => 0,
        _ => rng.below(QUEUE_PLACES) as u64,
    };
    Handler { first: remembered(rng), second: remembered(rng), two, rated, queue, start, count: malformed }
}

/// Handler calls of both sides and takings, in any order.
fn plan(rng: &mut Rng) -> Vec<Step> {
    let most = if rng.once_in(24) { 250 } else { 10 };
    let mut plan = Vec::new();
    let mut steps = 1 + rng.below(most);
    while steps > 0 {
        let times = 1 + rng.below(steps.min(if most > 10 { 60 } else { 3 }));
        steps -= times;
        let times = times as u64;
        plan.push(match rng.below(6) {
            0..=2 => Step::Handle(Side::First, times),
            3..=4 => Step::Handle(Side::Second, times),
            _ => Step::Take(times),
        });
    }
    plan
}

/// A script for so many handler calls.
fn keys_for(plan: &[Step], rng: &mut Rng) -> Vec<u8> {
    let calls = plan.iter().map(|step| if let Step::Handle(_, times) = step { *times as usize } else { 0 }).sum();
    keys(rng, calls)
}

fn log_room(rng: &mut Rng) -> usize {
    match rng.below(6) {
        0 => rng.below(20),
        1 => 0,
        _ => 32,
    }
}

fn handle(rng: &mut Rng) -> Call {
    let plan = plan(rng);
    let script = keys_for(&plan, rng);
    let script2 = rng.once_in(2).then(|| keys_for(&plan, rng));
    let room = log_room(rng);
    Call { script2, ..call(Op::Handle(handler(rng), plan), script, room) }
}

fn dispatch(rng: &mut Rng) -> Call {
    let mut moves = Vec::new();
    for _ in 0..1 + rng.below(4) {
        moves.push(if rng.once_in(4) { Move::Take } else { Move::Steps(1 + rng.below(8) as u64) });
    }
    let lengths = [rng.below(8), rng.below(8), rng.below(24)];
    let [first, second] = [lengths[0], lengths[1]].map(|count| keys(rng, count));
    let mut third = bytes(rng, lengths[2]);
    third.iter_mut().for_each(|byte| *byte |= (rng.below(2) as u8) << 3);
    let mut places = [0; 3];
    if rng.once_in(2) {
        for (place, length) in places.iter_mut().zip([first.len(), second.len(), third.len()]) {
            *place = if rng.once_in(16) { u64::MAX - (rng.next() >> rng.below(64)) } else { rng.below(length + 2) as u64 };
        }
    }
    let (id, last) = (rng.pick(&[0, 3, 4]), if rng.once_in(3) { 0 } else { rng.below(4) as u8 });
    let handler = if rng.once_in(4) { Handler { two: true, ..Handler::default() } } else { handler(rng) };
    let op = Op::Dispatch(Box::new(Dispatch { handler, id, last, places, script3: third, moves }));
    let room = log_room(rng);
    Call { script2: Some(second), ..call(op, first, room) }
}

/// A dispatcher's steps from a fresh state on.
fn begin_dispatch(rng: &mut Rng) -> Call {
    let mut call = dispatch(rng);
    if let Op::Dispatch(dispatch) = &mut call.op {
        dispatch.handler = Handler { two: !rng.once_in(4), rated: rng.once_in(4), ..Handler::default() };
        (dispatch.last, dispatch.places) = (0, [0; 3]);
    }
    call
}

/// What a device answers to so many bytes.
pub fn exchanges(rng: &mut Rng, count: usize) -> Vec<u8> {
    let mut script = Vec::new();
    (0..count).for_each(|_| exchange(&mut script, rng));
    if rng.once_in(2) {
        damage(&mut script, rng);
    }
    script
}

fn keyboard_init(rng: &mut Rng) -> Call {
    const GOOD: [u8; 27] =
        [0, 1, 0xFA, 0, 1, 0xFA, 1, 0xAB, 1, 0x83, 0, 1, 0xFA, 0, 1, 0xFA, 0, 1, 0xFA, 0, 1, 0xFA, 0, 1, 0xFA, 1, 1];
    let mut script = GOOD.to_vec();
    damage(&mut script, rng);
    let room = if rng.once_in(4) { rng.below(20) } else { 64 };
    call(Op::KeyboardInit { two: rng.once_in(2), rated: rng.once_in(2) }, script, room)
}

fn to_ascii(rng: &mut Rng) -> Call {
    call(Op::ToAscii(event(rng, false).keycode, rng.next() as u16), Vec::new(), 0)
}

fn convert_set2(rng: &mut Rng) -> Call {
    let mut stream = Vec::new();
    for _ in 0..rng.below(40) {
        match rng.below(12) {
            0 if rng.once_in(6) => stream.push(rng.next() as u8),
            1 => stream.extend([0xE0, 0xF0, rng.pick(&[0x75, 0x14, 0x11])]),
            2 => stream.extend([0xE0, rng.pick(&[0x75, 0x14, 0x11])]),
            3 => stream.extend([0xE1, 0x14, 0x77]),
            4..=7 => stream.extend([0xF0, 1 + rng.below(0x7F) as u8]),
            _ => stream.push(1 + rng.below(0x7F) as u8),
        }
    }
    damage(&mut stream, rng);
    let room = if rng.once_in(3) { rng.below(stream.len() + 2) } else { stream.len() };
    call(Op::ConvertSet2, stream, room)
}

fn type_text(rng: &mut Rng) -> Call {
    let mut text: Vec<u8> =
        (0..rng.below(40)).map(|_| rng.pick(&[8, 9, 10, 27, 32, 65, 97]) + rng.below(26) as u8 % 26).collect();
    if !rng.once_in(3) {
        text.iter_mut().for_each(|byte| *byte = 32 + *byte % 95);
    }
    damage(&mut text, rng);
    let room = if rng.once_in(3) { rng.below(4 * text.len() + 2) } else { 4 * text.len() };
    call(Op::TypeText, text, room)
}

fn salvage(rng: &mut Rng) -> Call {
    let mut recording = Vec::new();
    let id = rng.pick(&[0, 3, 4]);
    for _ in 0..rng.below(24) {
        recording.push(rng.next() as u8 | 8);
        let others = if id == 0 { 2 } else { 3 };
        recording.extend(bytes(rng, others));
        damage(&mut recording, rng);
    }
    let room = if rng.once_in(3) { rng.below(recording.len() + 2) } else { recording.len() };
    let places = if rng.once_in(3) { rng.below(recording.len() + 2) } else { recording.len() };
    call(Op::Salvage(Salvage { id, places }), recording, room)
}

fn preferences(rng: &mut Rng) -> Preferences {
    let version = 1 + rng.below(2) as u8;
    let mut fields = vec![1 + rng.below(3) as u32, rng.pick(&RATES) as u32, rng.below(4) as u32, rng.below(8) as u32];
    if version == 2 {
        fields.push(rng.below(128) as u32);
    }
    if rng.once_in(4) {
        let at = rng.below(fields.len());
        fields[at] = match rng.below(3) {
            0 => rng.next() as u32,
            1 => rng.pick(&[0, 3, 4, 7, 8, 9, 10, 127, 128, 200, 201, 255, 256]),
            _ => rng.below(256) as u32,
        };
    }
    Preferences { version, fields }
}

fn write_preferences(rng: &mut Rng) -> Call {
    let room = if rng.once_in(3) { rng.below(10) } else { 16 };
    call(Op::WritePreferences(preferences(rng)), Vec::new(), room)
}

/// A number in groups of seven bits, the low one first.
fn put_number(out: &mut Vec<u8>, mut number: u32) {
    while number >= 0x80 {
        out.push(number as u8 | 0x80);
        number >>= 7;
    }
    out.push(number as u8);
}

fn read_preferences(rng: &mut Rng) -> Call {
    let Preferences { version, fields } = preferences(rng);
    let mut input = vec![version, version + 3];
    fields.into_iter().for_each(|field| put_number(&mut input, field));
    if rng.once_in(2) {
        damage(&mut input, rng);
    }
    call(Op::ReadPreferences(1 + rng.below(2) as u8), input, 0)
}

fn apply_preferences(rng: &mut Rng) -> Call {
    let mut script = exchanges(rng, 4);
    script.extend([1, 1]);
    script.extend(exchanges(rng, 8));
    damage(&mut script, rng);
    let room = if rng.once_in(4) { rng.below(36) } else { 64 };
    call(Op::ApplyPreferences(preferences(rng)), script, room)
}

const EMPTY: Numbers = Numbers { presses: [0; KEYS], packets: 0, x: 0, y: 0 };

/// Sessions added to an empty report.
fn begin_season(rng: &mut Rng, width: &'static Width) -> Call {
    let mut call = season(rng, width, false);
    if let Op::Season(season) = &mut call.op {
        season.from = EMPTY;
    }
    call
}

/// Sessions added to a report of a width, or one that is converted.
fn season(rng: &mut Rng, width: &'static Width, widens: bool) -> Call {
    let mut from = EMPTY;
    if !rng.once_in(4) {
        // Near a limit, or any.
        let count = |rng: &mut Rng| match rng.below(4) {
            0 => width.most - rng.below(3) as u64,
            1 => rng.next() & width.most,
            2 if width.most == u64::MAX => 0xFFFF_FFFF_FFFF - rng.below(3) as u64,
            _ => rng.below(10) as u64,
        };
        let sum = |rng: &mut Rng| match rng.below(4) {
            0 => width.low + rng.below(600) as i64,
            1 => width.high - rng.below(600) as i64,
            2 => (rng.next() as i64).clamp(width.low, width.high),
            _ => rng.below(1000) as i64 - 500,
        };
        from.presses[rng.below(KEYS)] = count(rng);
        from.presses[0x1E] = count(rng);
        (from.packets, from.x, from.y) = (count(rng), sum(rng), sum(rng));
    }
    let mut sessions = Vec::new();
    if !widens {
        for _ in 0..rng.below(4) {
            let events = (0..rng.below(8))
                .map(|_| KeyEvent {
                    keycode: if rng.once_in(2) { 0x1E } else { rng.below(KEYS) as u8 },
                    released: rng.once_in(2),
                    flags: 0,
                    side: Side::First,
                })
                .collect();
            let length = rng.below(20);
            sessions.push(Session { id: rng.pick(&[0, 3, 4]), events, mouse: bytes(rng, length) });
        }
    }
    call(Op::Season(Season { width, widens, from, sessions }), Vec::new(), 0)
}

fn read_packet(rng: &mut Rng) -> Call {
    let length = rng.below(6);
    let script = bytes(rng, length);
    call(Op::Mouse(MouseOp::ReadSignedPacket, Some(rng.pick(&[0, 3, 4]))), script, 0)
}

/// The identity's exchange on a mouse that has one already.
fn reset_mouse_identity(rng: &mut Rng) -> Call {
    let mut script = Vec::new();
    for _ in 0..7 {
        exchange(&mut script, rng);
        if rng.once_in(2) {
            script.extend([0x21, rng.pick(&[0, 3, 4, 5])]);
        }
    }
    damage(&mut script, rng);
    let room = if rng.once_in(4) { rng.below(40) } else { 100 };
    call(Op::Mouse(MouseOp::SetId, Some(rng.pick(&[0, 3, 4]))), script, room)
}
