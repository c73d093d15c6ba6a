//! Which number of a lent record stands for what, and the record that numbers stand for.

use crate::call::{Handler, KeyEvent, Remembered, Side, LAST_KEYCODE, QUEUE_PLACES, RELEASE_KEYCODES, WAITING_PLACES};
use crate::device::Rng;

/// The numbers of a handler's record and of a dispatcher's state, whose first are a handler's record.
pub const HANDLER_WORDS: usize = 144;
pub const DISPATCHER_WORDS: usize = 149;

/// Of a keyboard, from `keyboard_at` on: the prefix, the flags, how many bytes wait, and these in two numbers.
const PREFIX: usize = 0;
const FLAGS: usize = 1;
const WAITS: usize = 2;
const BYTES: usize = 3;
const OF_KEYBOARD: usize = 5;
const KEYBOARDS: usize = 10;
const PROFILE: usize = 11;
pub const START: usize = 12;
pub const COUNT: usize = 13;
pub const SIDES: usize = 14;
const PLACES: usize = 16;

/// Of a dispatcher's state: the mouse's identity, the places in three scripts, who was served last.
pub const IDENTITY: usize = 144;
pub const AT: usize = 145;
pub const LAST: usize = 148;

pub fn keyboard_at(side: Side) -> usize {
    match side {
        Side::First => 0,
        Side::Second => OF_KEYBOARD,
    }
}

/// How many bytes of a side are said to wait.
pub fn waiting(words: &[u64], side: Side) -> u64 {
    words[keyboard_at(side) + WAITS]
}

fn is_keycode(byte: u8) -> bool {
    byte <= LAST_KEYCODE || RELEASE_KEYCODES.contains(&byte)
}

fn event_of(word: u64, side: Side) -> KeyEvent {
    let keycode = if is_keycode(word as u8) { word as u8 } else { 0 };
    KeyEvent { keycode, released: word >> 8 & 0xFF != 0, flags: (word >> 16) as u16, side }
}

/// The number of a place that holds an event.
pub fn word_of(event: &KeyEvent) -> u64 {
    event.keycode as u64 | (event.released as u64) << 8 | (event.flags as u64) << 16
}

/// The side of the i-th event that waits.
fn side_of(words: &[u64], i: usize) -> Side {
    match words[SIDES + i / 64] >> (i % 64) & 1 {
        0 => Side::First,
        _ => Side::Second,
    }
}

fn remembered(words: &[u64], side: Side) -> Remembered {
    let words = &words[keyboard_at(side)..];
    let mut kept = [words[BYTES].to_le_bytes(), words[BYTES + 1].to_le_bytes()].concat();
    kept.truncate(words[WAITS].min(WAITING_PLACES as u64) as usize);
    let waits = Some(words[WAITS]).filter(|&waits| waits > WAITING_PLACES as u64);
    Remembered { ext: words[PREFIX] != 0, flags: words[FLAGS] as u16, kept, waits }
}

/// The record that numbers stand for.
pub fn record_of(words: &[u64]) -> Handler {
    let (start, events) = (words[START], words[COUNT]);
    let given = events.min(QUEUE_PLACES as u64) as usize;
    let first = start as usize % QUEUE_PLACES;
    let event = |i| event_of(words[PLACES + (first + i) % QUEUE_PLACES], side_of(words, i));
    Handler {
        first: remembered(words, Side::First),
        second: remembered(words, Side::Second),
        two: words[KEYBOARDS] == 2,
        rated: words[PROFILE] != 0,
        queue: (0..given).map(event).collect(),
        start,
        count: Some(events).filter(|&events| events > QUEUE_PLACES as u64),
    }
}

/// Numbers that stand for a record: those that a record has, or with anything in the places where nothing waits.
pub fn words_of(handler: &Handler, mut chance: Option<&mut Rng>) -> Vec<u64> {
    let mut words = vec![0; HANDLER_WORDS];
    // What is added to a number above its lowest bits, and what is put where nothing counts.
    let mut noise = |low: u32| chance.as_mut().map_or(0, |rng| rng.next() * rng.below(2) as u64) << low;
    for place in PLACES..HANDLER_WORDS {
        words[place] = noise(0);
    }
    for (side, keyboard) in [(Side::First, &handler.first), (Side::Second, &handler.second)] {
        let at = keyboard_at(side);
        words[at + PREFIX] = keyboard.ext as u64;
        words[at + FLAGS] = keyboard.flags as u64;
        words[at + WAITS] = keyboard.waiting();
        let mut bytes = [noise(0).to_le_bytes(), noise(0).to_le_bytes()].concat();
        bytes[..keyboard.kept.len()].copy_from_slice(&keyboard.kept);
        words[at + BYTES] = u64::from_le_bytes(bytes[..8].try_into().unwrap());
        words[at + BYTES + 1] = u64::from_le_bytes(bytes[8..].try_into().unwrap());
    }
    words[KEYBOARDS] = 1 + handler.two as u64;
    words[PROFILE] = handler.rated as u64;
    words[START] = handler.start;
    words[COUNT] = handler.events();
    (words[SIDES], words[SIDES + 1]) = (noise(0), noise(0));
    for (i, event) in handler.queue.iter().enumerate() {
        let (word, bit) = (&mut words[SIDES + i / 64], 1 << (i % 64));
        match event.side {
            Side::First => *word &= !bit,
            Side::Second => *word |= bit,
        }
        let action = if event.released { (1 + noise(1) % 255) << 8 } else { 0 };
        let place = PLACES + (handler.start as usize % QUEUE_PLACES + i) % QUEUE_PLACES;
        words[place] = event.keycode as u64 | action | (event.flags as u64) << 16 | noise(32);
    }
    words
}

/// Numbers by chance: such as a record has, such as stand next to a limit, and any.
pub fn by_chance(rng: &mut Rng) -> Vec<u64> {
    let mut words: Vec<u64> = (0..HANDLER_WORDS).map(|_| rng.next()).collect();
    for side in [Side::First, Side::Second] {
        let at = keyboard_at(side);
        words[at + PREFIX] *= rng.below(2) as u64;
        words[at + FLAGS] = match rng.below(16) {
            0 => rng.next(),
            1 => 0x7FF + rng.below(2) as u64,
            2 => rng.next() << 16 | rng.next() % 0x800,
            _ => rng.next() % 0x800,
        };
        words[at + WAITS] = match rng.below(16) {
            0 => rng.next(),
            1 => 15 + rng.below(4) as u64,
            2 => rng.next() << 8 | rng.next() % 17,
            3..=6 => rng.next() % 17,
            _ => 0,
        };
    }
    words[KEYBOARDS] = match rng.below(8) {
        0 => rng.next(),
        1 => rng.below(4) as u64,
        2..=3 => 1,
        _ => 2,
    };
    words[PROFILE] *= rng.once_in(4) as u64;
    words[START] = match rng.below(24) {
        0 => rng.next(),
        1 => rng.next() % 0x10000,
        2 => 127 + rng.below(2) as u64,
        _ => rng.next() % 128,
    };
    words[COUNT] = match rng.below(24) {
        0 => rng.next(),
        1 => rng.next() % 0x10000,
        2..=3 => 126 + rng.below(4) as u64,
        4..=8 => rng.next() % 129,
        _ => rng.next() % 8,
    };
    match rng.below(8) {
        0 => (words[SIDES], words[SIDES + 1]) = (0, 0),
        1 => (words[SIDES], words[SIDES + 1]) = (u64::MAX, u64::MAX),
        2 => words[SIDES] = u64::MAX,
        _ => {}
    }
    for place in &mut words[PLACES..HANDLER_WORDS] {
        if !rng.once_in(4) {
            *place = *place & !0xFF | rng.next() % (LAST_KEYCODE as u64 + 1);
        }
    }
    words
}

/// Makes numbers those of a well-formed record at a table with one keyboard or two, with nothing waiting; and of a dispatcher's state, where
/// they are one's.
pub fn make_formed(words: &mut [u64]) {
    for at in [0, OF_KEYBOARD] {
        words[at + PREFIX] %= 2;
        words[at + FLAGS] %= 0x800;
        words[at + WAITS] = 0;
    }
    words[KEYBOARDS] = 1 + words[KEYBOARDS] % 2;
    words[PROFILE] %= 2;
    words[START] %= QUEUE_PLACES as u64;
    words[COUNT] = 0;
    if words.len() > HANDLER_WORDS {
        words[IDENTITY] = [0, 3, 4][words[IDENTITY] as usize % 3];
        words[LAST] %= 4;
    }
}

/// A number that is none of these: one with a bit above them, or next to them.
fn beyond(rng: &mut Rng, least: u64) -> u64 {
    match rng.below(3) {
        0 => least,
        1 => 1 << (64 - least.leading_zeros()).max(rng.below(64) as u32).min(63) | rng.next() % least,
        _ => least + (rng.next() >> rng.below(64)).min(u64::MAX - least),
    }
}

/// Puts one number that no record can hold in the place of one that counts.
pub fn malform(words: &mut [u64], rng: &mut Rng) {
    let side = if words[KEYBOARDS] == 2 && rng.once_in(2) { OF_KEYBOARD } else { 0 };
    let (at, least) = rng.pick(&[
        (side + PREFIX, 2),
        (side + FLAGS, 0x800),
        (side + WAITS, 17),
        (KEYBOARDS, 3),
        (PROFILE, 2),
        (START, 128),
        (COUNT, 129),
    ]);
    words[at] = if at == KEYBOARDS && rng.once_in(4) { 0 } else { beyond(rng, least) };
}

/// The same of a dispatcher's own numbers: the identity, and who was served last.
pub fn malform_dispatcher(words: &mut [u64], rng: &mut Rng) {
    match rng.below(3) {
        0 => words[IDENTITY] = rng.pick(&[1, 2]),
        1 => words[IDENTITY] = beyond(rng, 5),
        _ => words[LAST] = beyond(rng, 4),
    }
}

/// Whether some record has these numbers in its fields, well formed or not.
pub fn fit(words: &[u64]) -> bool {
    let keyboard = |at: usize| words[at + PREFIX] < 2 && words[at + FLAGS] < 0x10000 && words[at + WAITS] < 0x100;
    keyboard(0)
        && words[PROFILE] < 2
        && match words[KEYBOARDS] {
            1 => true,
            2 => keyboard(OF_KEYBOARD),
            _ => false,
        }
}

/// The numbers of the record that numbers stand for: of a side that isn't at the table nothing is remembered, and a place has an event's number.
pub fn as_stored(words: &[u64]) -> Vec<u64> {
    let mut stored = words.to_vec();
    if stored[KEYBOARDS] == 1 {
        stored[OF_KEYBOARD..2 * OF_KEYBOARD].fill(0);
    }
    for place in &mut stored[PLACES..] {
        *place = word_of(&event_of(*place, Side::First));
    }
    stored
}

/// What is wrong with the numbers that a handler call left: it writes a side's keyboard and, where it gives an event, one place, the
/// count and a bit of the sides; nothing after 2, 3, 21 or 255.
pub fn wrong_after_handling(before: &[u64], after: &[u64], side: Side, refusal: u32) -> Option<String> {
    let mut expected = before.to_vec();
    if !matches!(refusal, 2 | 3 | 21 | 255) {
        let at = keyboard_at(side);
        expected[at..at + OF_KEYBOARD].copy_from_slice(&after[at..at + OF_KEYBOARD]);
        // What is written are numbers as a record has them.
        expected[at + PREFIX] = (after[at + PREFIX] != 0) as u64;
        expected[at + FLAGS] &= 0xFFFF;
        expected[at + WAITS] &= 0xFF;
        if after[COUNT] != before[COUNT] {
            let count = before[COUNT] as usize % QUEUE_PLACES;
            expected[COUNT] += 1;
            let (word, bit) = (&mut expected[SIDES + count / 64], 1 << (count % 64));
            match side {
                Side::First => *word &= !bit,
                Side::Second => *word |= bit,
            }
            let place = PLACES + (before[START] as usize % QUEUE_PLACES + count) % QUEUE_PLACES;
            expected[place] = word_of(&event_of(after[place], side));
        }
    }
    first_wrong(&expected, after)
}

/// What is wrong with the numbers that a taking left: it writes the start, the count and the sides, where it gave an event.
pub fn wrong_after_taking(before: &[u64], after: &[u64], gave: bool) -> Option<String> {
    let mut expected = before.to_vec();
    if gave {
        expected[START] = (before[START] + 1) % QUEUE_PLACES as u64;
        expected[COUNT] = before[COUNT].wrapping_sub(1);
        expected[SIDES] = before[SIDES] >> 1 | before[SIDES + 1] << 63;
        expected[SIDES + 1] = before[SIDES + 1] >> 1;
    }
    first_wrong(&expected, after)
}

pub fn first_wrong(expected: &[u64], after: &[u64]) -> Option<String> {
    let at = expected.iter().zip(after).position(|(one, other)| one != other)?;
    Some(format!("number {at} of the record is {} and not {}", after[at], expected[at]))
}
