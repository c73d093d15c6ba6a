//! What the Rust of docs/src hasn't, as plain safe Rust: what the port's operations on lent bytes are measured against.

use crate::answer::Answer;
use crate::call::{Call, Op};
use crate::prefs_apply;
use crate::prefs_code::FieldsRead;
use std::hint::black_box;

/// Brouwer's translation of set 2 to set 1; 00 where there is no entry.
#[rustfmt::skip]
static SET1: [u8; 256] = {
    let mut table = [0; 256];
    let entries = [
        0x00, 0x43, 0x41, 0x3F, 0x3D, 0x3B, 0x3C, 0x58, 0x64, 0x44, 0x42, 0x40, 0x3E, 0x0F, 0x29, 0x59,
        0x65, 0x38, 0x2A, 0x70, 0x1D, 0x10, 0x02, 0x5A, 0x66, 0x71, 0x2C, 0x1F, 0x1E, 0x11, 0x03, 0x5B,
        0x67, 0x2E, 0x2D, 0x20, 0x12, 0x05, 0x04, 0x5C, 0x68, 0x39, 0x2F, 0x21, 0x14, 0x13, 0x06, 0x5D,
        0x69, 0x31, 0x30, 0x23, 0x22, 0x15, 0x07, 0x5E, 0x6A, 0x72, 0x32, 0x24, 0x16, 0x08, 0x09, 0x5F,
        0x6B, 0x33, 0x25, 0x17, 0x18, 0x0B, 0x0A, 0x60, 0x6C, 0x34, 0x35, 0x26, 0x27, 0x19, 0x0C, 0x61,
        0x6D, 0x73, 0x28, 0x74, 0x1A, 0x0D, 0x62, 0x6E, 0x3A, 0x36, 0x1C, 0x1B, 0x75, 0x2B, 0x63, 0x76,
        0x55, 0x56, 0x77, 0x78, 0x79, 0x7A, 0x0E, 0x7B, 0x7C, 0x4F, 0x7D, 0x4B, 0x47, 0x7E, 0x7F, 0x6F,
        0x52, 0x53, 0x50, 0x4C, 0x4D, 0x48, 0x01, 0x45, 0x57, 0x4E, 0x51, 0x4A, 0x37, 0x49, 0x46, 0x54,
        0x00, 0x00, 0x00, 0x41, 0x54,
    ];
    let mut code = 0;
    while code < entries.len() {
        table[code] = entries[code];
        code += 1;
    }
    table
};

/// The refusals of a conversion.
#[derive(Clone, Copy)]
enum Refused {
    NoEntry = 22,
    OutputFull = 23,
    EndsAfterF0 = 24,
}

/// How a conversion ended, the bytes used and the bytes written.
type Converted = (Result<(), Refused>, usize, usize);

/// Converts a set 2 key stream to set 1.
fn convert_set2(stream: &[u8], out: &mut [u8]) -> Converted {
    let (mut used, mut written) = (0, 0);
    while let Some(&code) = stream.get(used) {
        let (byte, width) = match code {
            0xF0 => match stream.get(used + 1) {
                None => return (Err(Refused::EndsAfterF0), used, written),
                Some(&code) => match SET1[code as usize] {
                    0 => (0, 2),
                    entry => (entry | 0x80, 2),
                },
            },
            0xE0 | 0xE1 => (code, 1),
            _ => (SET1[code as usize], 1),
        };
        if byte == 0 {
            return (Err(Refused::NoEntry), used, written);
        }
        let Some(place) = out.get_mut(written) else {
            return (Err(Refused::OutputFull), used, written);
        };
        *place = byte;
        written += 1;
        used += width;
    }
    (Ok(()), used, written)
}

/// The keys of a US keyboard: from a code on, the characters without Shift and with it. Where a character stands twice in one column,
/// the lower code is meant.
const LAYOUT: [(u8, &[u8], &[u8]); 11] = [
    (0x01, b"\x1B", b"\x1B"),
    (0x02, b"1234567890-=", b"!@#$%^&*()_+"),
    (0x0E, b"\x08\t", b"\x08\t"),
    (0x10, b"qwertyuiop[]", b"QWERTYUIOP{}"),
    (0x1C, b"\n", b"\n"),
    (0x1E, b"asdfghjkl;'`", b"ASDFGHJKL:\"~"),
    (0x2B, b"\\zxcvbnm,./", b"|ZXCVBNM<>?"),
    (0x37, b"*", b"*"),
    (0x39, b" ", b" "),
    (0x4A, b"-", b"-"),
    (0x4E, b"+", b"+"),
];

/// The key of each character, with the top bit where it needs Shift; 00 where there is none. From the highest code down, so that the
/// lowest stays, and with Shift before without.
static KEYS: [u8; 256] = {
    let mut keys = [0; 256];
    let mut shift = 2;
    while shift > 0 {
        shift -= 1;
        let mut row = LAYOUT.len();
        while row > 0 {
            row -= 1;
            let (code, plain, shifted) = LAYOUT[row];
            let characters = if shift == 1 { shifted } else { plain };
            let mut i = characters.len();
            while i > 0 {
                i -= 1;
                keys[characters[i] as usize] = code + i as u8 + 0x80 * shift;
            }
        }
    }
    keys
};

/// The refusals of a typing.
#[derive(Clone, Copy)]
enum NotTyped {
    NoKey = 25,
    OutputShort = 26,
}

/// Writes the scancodes of a text, and tells how many bytes they are.
fn type_text(text: &[u8], out: &mut [u8]) -> Result<usize, NotTyped> {
    let mut needed = 0;
    for &character in text {
        match KEYS[character as usize] {
            0 => return Err(NotTyped::NoKey),
            0x01..=0x7F => needed += 2,
            0x80..=0xFF => needed += 4,
        }
    }
    let mut out = out.get_mut(..needed).ok_or(NotTyped::OutputShort)?;
    for &character in text {
        let key = KEYS[character as usize];
        if key < 0x80 {
            let (strokes, rest) = out.split_at_mut(2);
            strokes.copy_from_slice(&[key, key | 0x80]);
            out = rest;
        } else {
            let (strokes, rest) = out.split_at_mut(4);
            strokes.copy_from_slice(&[0x2A, key & 0x7F, key, 0xAA]);
            out = rest;
        }
    }
    Ok(needed)
}

/// The four fields that every record has.
#[derive(Clone, Copy)]
struct Fields {
    set: u32,
    rate: u32,
    resolution: u32,
    lamps: u32,
}

/// A record: the repeat byte is there in version 2.
#[derive(Clone, Copy)]
struct Preferences {
    fields: Fields,
    repeat: Option<u32>,
}

/// The refusals of a reading, and of a writing.
#[derive(Clone, Copy)]
enum NotRead {
    Malformed = 27,
    OutsideValues = 28,
    BytesFollow = 29,
}

#[derive(Clone, Copy)]
enum NotWritten {
    OutputShort = 23,
    OutsideValues = 28,
}

/// Takes a number from the front of a string.
fn take_number(input: &mut &[u8]) -> Result<u32, NotRead> {
    let mut value: u64 = 0;
    for place in 0..5 {
        let (&byte, rest) = input.split_first().ok_or(NotRead::Malformed)?;
        *input = rest;
        value |= u64::from(byte & 0x7F) << (7 * place);
        if byte < 0x80 {
            let is_shortest = byte != 0 || place == 0;
            return if is_shortest {
                u32::try_from(value).map_err(|_| NotRead::Malformed)
            } else {
                Err(NotRead::Malformed)
            };
        }
    }
    Err(NotRead::Malformed)
}

/// Takes a number that is what a question asks for.
fn take(input: &mut &[u8], accepts: impl Fn(u32) -> bool) -> Result<u32, NotRead> {
    let number = take_number(input)?;
    if accepts(number) {
        Ok(number)
    } else {
        Err(NotRead::OutsideValues)
    }
}

fn is_set(n: u32) -> bool {
    (1..=3).contains(&n)
}

fn is_rate(n: u32) -> bool {
    matches!(n, 10 | 20 | 40 | 60 | 80 | 100 | 200)
}

/// Reads a record. What the fifth field must be is the reader's.
fn read_preferences(mut input: &[u8], fifth: impl Fn(u32) -> bool) -> Result<Preferences, NotRead> {
    let version = take(&mut input, |n| n == 1 || n == 2)?;
    take(&mut input, |n| n == version + 3)?;
    let fields = Fields {
        set: take(&mut input, is_set)?,
        rate: take(&mut input, is_rate)?,
        resolution: take(&mut input, |n| n <= 3)?,
        lamps: take(&mut input, |n| n <= 7)?,
    };
    let repeat = if version == 2 { Some(take(&mut input, fifth)?) } else { None };
    if input.is_empty() {
        Ok(Preferences { fields, repeat })
    } else {
        Err(NotRead::BytesFollow)
    }
}

fn read_preferences_1(input: &[u8]) -> Result<Fields, NotRead> {
    read_preferences(input, |_| true).map(|preferences| preferences.fields)
}

fn read_preferences_2(input: &[u8]) -> Result<Preferences, NotRead> {
    read_preferences(input, |n| n <= 127)
}

/// How many bytes a number takes.
fn number_length(number: u32) -> usize {
    match number {
        0..=0x7F => 1,
        0x80..=0x3FFF => 2,
        0x4000..=0x1F_FFFF => 3,
        0x20_0000..=0xFFF_FFFF => 4,
        _ => 5,
    }
}

/// Puts a number at a place where there is room, and tells the next one.
fn put_number(out: &mut [u8], mut at: usize, mut number: u32) -> usize {
    while number >= 0x80 {
        out[at] = number as u8 | 0x80;
        number >>= 7;
        at += 1;
    }
    out[at] = number as u8;
    at + 1
}

/// Writes a record, and tells how many bytes it takes.
fn write_preferences(preferences: Preferences, out: &mut [u8]) -> Result<usize, NotWritten> {
    let Preferences { fields, repeat } = preferences;
    let are_within = is_set(fields.set) && is_rate(fields.rate) && fields.resolution <= 3 && fields.lamps <= 7;
    if !are_within || repeat.is_some_and(|n| n > 127) {
        return Err(NotWritten::OutsideValues);
    }
    let head = if repeat.is_some() { [2, 5] } else { [1, 4] };
    let numbers = [fields.set, fields.rate, fields.resolution, fields.lamps];
    let needed = numbers.iter().chain(&repeat).map(|&number| number_length(number)).sum::<usize>() + head.len();
    let out = out.get_mut(..needed).ok_or(NotWritten::OutputShort)?;
    let mut at = 0;
    for &number in head.iter().chain(&numbers).chain(&repeat) {
        at = put_number(out, at, number);
    }
    Ok(needed)
}

/// The record that a call line tells.
fn record_of(told: &prefs_apply::Preferences) -> Preferences {
    let [set, rate, resolution, lamps] = [0, 1, 2, 3].map(|i| told.fields[i]);
    Preferences { fields: Fields { set, rate, resolution, lamps }, repeat: told.fields.get(4).copied() }
}

fn answer_reading(read: Result<Preferences, NotRead>) -> Answer {
    Answer::Fields(match read {
        Ok(Preferences { fields, repeat }) => {
            let four = [fields.set, fields.rate, fields.resolution, fields.lamps];
            FieldsRead { end: 0, fields: four.into_iter().chain(repeat).collect() }
        }
        Err(refused) => FieldsRead { end: refused as u8, fields: Vec::new() },
    })
}

pub fn answer(call: &Call) -> Answer {
    let mut out = vec![0; call.room];
    let (end, used, written) = match &call.op {
        Op::ReadPreferences(1) => {
            return answer_reading(read_preferences_1(&call.script).map(|fields| Preferences { fields, repeat: None }))
        }
        Op::ReadPreferences(_) => return answer_reading(read_preferences_2(&call.script)),
        Op::WritePreferences(told) => match write_preferences(record_of(told), &mut out) {
            Ok(written) => (0, None, written),
            Err(refused) => (refused as u8, None, 0),
        },
        Op::ConvertSet2 => {
            let (end, used, written) = convert_set2(&call.script, &mut out);
            (end.map_or_else(|refused| refused as u8, |()| 0), Some(used), written)
        }
        Op::TypeText => match type_text(&call.script, &mut out) {
            Ok(written) => (0, None, written),
            Err(refused) => (refused as u8, None, 0),
        },
        _ => unreachable!("{} takes no lent bytes", call.op.name()),
    };
    out.truncate(written);
    Answer::Bytes { end, used, bytes: out }
}

/// The operations as a program calls those of a library: none is made a part of its caller.
mod called {
    use super::*;

    #[inline(never)]
    pub(super) fn convert_set2(stream: &[u8], out: &mut [u8]) -> Converted {
        super::convert_set2(stream, out)
    }

    #[inline(never)]
    pub(super) fn type_text(text: &[u8], out: &mut [u8]) -> Result<usize, NotTyped> {
        super::type_text(text, out)
    }

    #[inline(never)]
    pub(super) fn write_preferences(preferences: Preferences, out: &mut [u8]) -> Result<usize, NotWritten> {
        super::write_preferences(preferences, out)
    }

    #[inline(never)]
    pub(super) fn read_preferences_1(input: &[u8]) -> Result<Fields, NotRead> {
        super::read_preferences_1(input)
    }

    #[inline(never)]
    pub(super) fn read_preferences_2(input: &[u8]) -> Result<Preferences, NotRead> {
        super::read_preferences_2(input)
    }
}

/// Makes a call so many times for measuring, its answer left where the operation puts it. The operations are those of this module, or
/// those of another that has the same names.
macro_rules! repeat {
    ($call:expr, $times:expr, $($operations:ident)::+) => {{
        use $($operations)::+ as operations;
        let (call, times): (&Call, u64) = ($call, $times);
        let mut out = vec![0; call.room];
        match &call.op {
            Op::ReadPreferences(1) => (0..times).for_each(|_| {
                let answer = operations::read_preferences_1(black_box(&call.script));
                black_box(&answer);
            }),
            Op::ReadPreferences(_) => (0..times).for_each(|_| {
                let answer = operations::read_preferences_2(black_box(&call.script));
                black_box(&answer);
            }),
            Op::WritePreferences(told) => {
                let record = record_of(told);
                (0..times).for_each(|_| {
                    let answer = operations::write_preferences(black_box(record), black_box(&mut out));
                    black_box(&answer);
                })
            }
            Op::ConvertSet2 => (0..times).for_each(|_| {
                let answer = operations::convert_set2(black_box(&call.script), black_box(&mut out));
                black_box(&answer);
            }),
            Op::TypeText => (0..times).for_each(|_| {
                let answer = operations::type_text(black_box(&call.script), black_box(&mut out));
                black_box(&answer);
            }),
            _ => unreachable!("{} takes no lent bytes", call.op.name()),
        }
    }};
}

/// The operations are a part of the loop, as the port's are in its own program.
pub fn repeat(call: &Call, times: u64) {
    repeat!(call, times, crate::plain)
}

/// The operations are called, as an export is.
pub fn repeat_called(call: &Call, times: u64) {
    repeat!(call, times, crate::plain::called)
}
