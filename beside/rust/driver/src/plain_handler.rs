//! What requests added to the handler, the dispatcher, and preferences applied, in plain Rust, written from document 02's words: two sides,
//! bytes that wait, the right Alt key, the tournament profile, malformed records, who is served. Each exchange is the Rust's own.

use crate::answer::{Answer, Done, Packet, Record, Value};
use crate::call::*;
use crate::dispatch::{Dispatch, Dispatched, Made, Move};
use crate::kept::Kept;
use crate::oracle::Oracle;
use crate::prefs_apply::Preferences;

/// The keys of rated games: letters, digits, Enter, Escape, the arrows, both Shifts and Control.
fn is_rated_key(code: u8) -> bool {
    matches!(code,
        0x01..=0x0B | 0x10..=0x19 | 0x1C | 0x1D | 0x1E..=0x26 | 0x2A | 0x2C..=0x32 | 0x36 | 0x48 | 0x4B | 0x4D | 0x50)
}

/// The flags after a key's byte.
fn flags_after(flags: u16, byte: u8, prefixed: bool, rated: bool) -> u16 {
    let pressed = byte < 0x80;
    let held = match (byte & 0x7F, prefixed) {
        (0x2A, _) => 1 << 0,
        (0x36, _) => 1 << 1,
        (0x1D, false) => 1 << 2,
        (0x1D, true) => 1 << 3,
        (0x38, false) => 1 << 4,
        (0x38, true) => 1 << 4 | 1 << 10,
        (0x5B, _) => 1 << 5,
        (0x5C, _) => 1 << 6,
        _ => 0,
    };
    match lock(byte, rated) {
        Some(flag) => flags ^ flag,
        None if pressed => flags | held,
        None => flags & !held,
    }
}

/// The flag of a lock that is pressed; under the profile no lock is followed.
fn lock(byte: u8, rated: bool) -> Option<u16> {
    match byte {
        _ if rated => None,
        0x3A => Some(1 << 7),
        0x45 => Some(1 << 8),
        0x46 => Some(1 << 9),
        _ => None,
    }
}

/// The lamp exchange's answer: how it ended, the bytes used and logged, and those that were thrown away, the earliest and how many others.
struct Lamps {
    end: u8,
    used: usize,
    log: Vec<u8>,
    thrown: Vec<u8>,
    others: usize,
}

/// A call of the Rust that shows what it threw away, each of its data bytes written as another.
fn shown(rust: &mut Oracle, op: Op, script: &[u8], room: usize, bytes: [(u8, u8); 2]) -> Lamps {
    let call = Call { op: Op::Kept(Box::new(op)), script: script.to_vec(), script2: None, room, repeat: 1 };
    let Answer::Kept(Kept { answer, bytes: thrown, others }) = rust.answer(&call) else { unreachable!() };
    let Answer::Call { end, used, mut log, .. } = *answer else { unreachable!() };
    for pair in log.chunks_mut(2).filter(|pair| pair[0] == 0x60) {
        pair[1] = bytes.iter().find(|(sent, _)| *sent == pair[1]).map_or(pair[1], |(_, byte)| *byte);
    }
    Lamps { end, used, log, thrown, others }
}

/// A command with its data byte, to the keyboard or to the mouse, as the Rust sends another with another byte.
fn pair(rust: &mut Oracle, ops: [Op; 2], script: &[u8], room: usize, bytes: [(u8, u8); 2]) -> Lamps {
    let [command, data] = ops;
    let first = shown(rust, command, script, room, [bytes[0]; 2]);
    if first.end != 0 {
        return first;
    }
    let rest = shown(rust, data, &script[first.used..], room - first.log.len(), [bytes[1]; 2]);
    let thrown = [first.thrown, rest.thrown].concat();
    let places = thrown.len().min(WAITING_PLACES);
    let others = first.others + rest.others + thrown.len() - places;
    Lamps {
        end: rest.end,
        used: first.used + rest.used,
        log: [first.log, rest.log].concat(),
        thrown: thrown[..places].to_vec(),
        others,
    }
}

/// The keyboard's repeat byte: how setting it ends, the bytes used and logged.
pub fn repeat(rust: &mut Oracle, byte: u8, script: &[u8], room: usize) -> (u8, usize, Vec<u8>) {
    let ops = [KeyboardOp::Command(0xF3), KeyboardOp::DataSet(0)].map(Op::Keyboard);
    let Lamps { end, used, log, .. } = pair(rust, ops, script, room, [(0xF3, 0xF3), (0, byte)]);
    (end, used, log)
}

/// Preferences are applied: 28 where a field is outside its values, else each field in turn until one is refused.
pub fn apply(rust: &mut Oracle, call: &Call, told: &Preferences) -> Answer {
    let Preferences { fields, .. } = told;
    let within = [1..=3, 10..=200, 0..=3, 0..=7, 0..=127];
    let all_within = fields.iter().zip(within).all(|(field, values)| values.contains(field));
    let is_rate = RATES.iter().any(|&rate| rate as u32 == fields[1]);
    let (mut end, mut used, mut log) = (28, 0, Vec::new());
    for (at, &field) in fields.iter().enumerate().take_while(|_| all_within && is_rate) {
        let (script, room) = (&call.script[used..], call.room - log.len());
        let field = field as u8;
        let op = match at {
            0 => Op::Keyboard(KeyboardOp::SetScancodeSet(field)),
            1 => Op::Mouse(MouseOp::SetSamplingRate(field), None),
            2 => Op::Mouse(MouseOp::Resolution(field), None),
            _ => Op::Keyboard(KeyboardOp::SetLed(field)),
        };
        let (ended, more, logged) = match at {
            4 => repeat(rust, field, script, room),
            _ => match rust.answer(&Call { op, script: script.to_vec(), script2: None, room, repeat: 1 }) {
                Answer::Call { end, used, log, .. } => (end, used, log),
                _ => unreachable!(),
            },
        };
        end = ended;
        used += more;
        log.extend(logged);
        if end != 0 {
            break;
        }
    }
    Answer::Call { end, used, log, value: Value::Nothing, record: Record::Nothing }
}

/// The lamps of a side are lit: the first keyboard's by the Rust's exchange, the second's as mouse commands are sent.
fn light(rust: &mut Oracle, side: Side, flags: u16, script: &[u8], room: usize) -> Lamps {
    let lamps = (flags >> 9 & 1 | (flags >> 8 & 1) << 1 | (flags >> 7 & 1) << 2) as u8;
    if side == Side::First {
        return shown(rust, Op::Keyboard(KeyboardOp::SetLed(lamps)), script, room, [(0, 0); 2]);
    }
    let ops = [MouseOp::Command(0xF3), MouseOp::DataRate(100)].map(|op| Op::Mouse(op, None));
    pair(rust, ops, script, room, [(0xF3, 0xED), (100, lamps)])
}

/// A handler call.
fn handle(rust: &mut Oracle, record: &mut Handler, side: Side, script: &[u8], room: usize) -> Done {
    let done = |end, used, log: Vec<u8>, lamps_failed, dropped| Done::Handled { side, used, log, end, lamps_failed, dropped };
    let refused = |end, used, log| done(end, used, log, false, 0);
    if side == Side::Second && !record.two || record.is_malformed() {
        return refused(21, 0, Vec::new());
    }
    let keyboard = if side == Side::First { &mut record.first } else { &mut record.second };
    let (byte, mut used) = match (keyboard.kept.first(), script.first()) {
        (Some(&byte), _) => (byte, 0),
        (None, Some(&byte)) => (byte, 1),
        (None, None) => return refused(2, 0, Vec::new()),
    };
    let mut left = Remembered { kept: keyboard.kept.clone(), ..*keyboard };
    if used == 0 {
        left.kept.remove(0);
    }
    left.ext = matches!(byte, 0xE0 | 0xE1);
    if matches!(byte, 0x00 | 0xE0 | 0xE1 | 0xFA) {
        *keyboard = left;
        return done(0, used, Vec::new(), false, 0);
    }
    left.flags = flags_after(keyboard.flags, byte, keyboard.ext, record.rated);
    let (mut log, mut lamps_failed, mut dropped) = (Vec::new(), false, 0);
    if lock(byte, record.rated).is_some() {
        let lamps = light(rust, side, left.flags, &script[used..], room);
        used += lamps.used;
        if matches!(lamps.end, 2 | 3) {
            return refused(lamps.end, used, lamps.log);
        }
        (log, lamps_failed) = (lamps.log, lamps.end != 0);
        left.kept.extend(lamps.thrown);
        let waiting = left.kept.len().min(WAITING_PLACES);
        dropped = (left.kept.len() - waiting + lamps.others) as u32;
        left.kept.truncate(waiting);
    }
    let event = KeyEvent { keycode: byte & 0x7F, released: byte >= 0x80, flags: left.flags, side };
    *keyboard = left;
    let of_side = record.queue.iter().filter(|event| event.side == side).count();
    let end = if event.keycode > LAST_KEYCODE {
        19
    } else if record.rated && !is_rated_key(event.keycode) {
        33
    } else if record.two && of_side >= SHARE {
        31
    } else if record.queue.len() >= QUEUE_PLACES {
        20
    } else {
        record.queue.push(event);
        0
    };
    done(end, used, log, lamps_failed, dropped)
}

/// A taking.
fn take(record: &mut Handler) -> Done {
    if record.is_malformed() {
        return Done::NotTaken(21);
    }
    Done::Taken((!record.queue.is_empty()).then(|| record.queue.remove(0)))
}

/// The record as a line tells it: a start that is a place is not told.
fn left(record: Handler) -> Handler {
    Handler { start: record.start_told(), ..record }
}

/// A run of handler calls and takings.
pub fn run(rust: &mut Oracle, call: &Call, handler: &Handler, plan: &[Step]) -> Answer {
    let scripts = [&call.script, call.script2.as_ref().unwrap_or(&call.script)];
    let (mut record, mut at, mut done) = (handler.clone(), [0; 2], Vec::new());
    'run: for step in plan {
        let (times, until_used) = match *step {
            Step::Handle(_, times) | Step::Take(times) => (times, false),
            Step::Auto | Step::Each => (u64::MAX, true),
        };
        for turn in 0..times {
            let side = if let Step::Handle(side, _) = *step { side } else { Side::First };
            let of = if call.script2.is_some() { side as usize } else { 0 };
            let one = if matches!(step, Step::Take(_)) || *step == Step::Each && turn % 2 == 1 {
                take(&mut record)
            } else if until_used && at[0] == call.script.len() && record.first.waiting() == 0 {
                break;
            } else {
                handle(rust, &mut record, side, &scripts[of][at[of]..], call.room)
            };
            at[of] += if let Done::Handled { used, .. } = one { used } else { 0 };
            let ends = matches!(one, Done::NotTaken(_) | Done::Handled { end: 2 | 3 | 21, .. });
            done.push(one);
            if ends {
                break 'run;
            }
        }
    }
    Answer::Run { done, left: left(record) }
}

/// A packet with the wheel's four bits at identity 4 signed.
pub fn signed(id: u8, packet: Packet) -> Packet {
    let [x, y, wheel] = packet.movements;
    Packet { movements: [x, y, if id == 4 && wheel > 7 { wheel - 16 } else { wheel }], ..packet }
}

/// A dispatcher's steps: going round side 1, side 2, mouse, from the one after the last served, at first from side 1.
pub fn steps(rust: &mut Oracle, call: &Call, told: &Dispatch) -> Answer {
    let second = call.script2.as_deref().unwrap_or_default();
    let scripts = [&call.script[..], second, &told.script3[..]];
    let (mut record, mut places, mut last) = (told.handler.clone(), told.places, told.last);
    let mut made = Vec::new();
    for one in &told.moves {
        let Move::Steps(count) = *one else {
            made.push(Made::Key(take(&mut record)));
            continue;
        };
        for _ in 0..count {
            let unused = [0, 1, 2].map(|i| &scripts[i][scripts[i].len().min(places[i].try_into().unwrap_or(usize::MAX))..]);
            let waits = |source: u8| match source {
                1 => !unused[0].is_empty() || record.first.waiting() > 0,
                // Of a side that isn't at the table nothing is remembered.
                2 => !unused[1].is_empty() || record.two && record.second.waiting() > 0,
                _ => unused[2].len() >= if told.id == 0 { 3 } else { 4 },
            };
            let round = (1..=3).map(|turn| (last + turn - 1) % 3 + 1);
            let Some(source) = round.into_iter().find(|&source| waits(source)) else {
                made.push(Made::Idle);
                continue;
            };
            let at = source as usize - 1;
            let served = if source == 3 {
                let op = Op::Mouse(MouseOp::ReadPacket, Some(told.id));
                let script = unused[2].to_vec();
                let read = rust.answer(&Call { op, script, script2: None, room: 0, repeat: 1 });
                let Answer::Call { end, used, value: Value::Packet(packet), .. } = read else { unreachable!() };
                places[at] += used as u64;
                Made::Packet { end, used, packet: signed(told.id, packet) }
            } else {
                let side = if source == 1 { Side::First } else { Side::Second };
                let done = handle(rust, &mut record, side, unused[at], call.room);
                places[at] += if let Done::Handled { used, .. } = done { used as u64 } else { 0 };
                Made::Key(done)
            };
            last = source;
            made.push(served);
        }
    }
    Answer::Dispatched(Dispatched { made, last, places, left: left(record) })
}
