//! Sessions added to a report: the call line, and its answer. The Rust has no such call.

use crate::call::*;
use std::fmt::{self, Write};

pub const KEYS: usize = LAST_KEYCODE as usize + 1;

/// A report's width: the name of its call, and the largest counts and sums that a call line can tell.
#[derive(Debug, PartialEq)]
pub struct Width {
    name: &'static str,
    pub most: u64,
    pub low: i64,
    pub high: i64,
}

pub const NARROW: Width =
    Width { name: "season32", most: u32::MAX as u64, low: i32::MIN as i64, high: i32::MAX as i64 };
pub const LONG: Width = Width { name: "season64", most: u64::MAX, low: i64::MIN, high: i64::MAX };

/// The call that converts an old report.
const WIDENING: &str = "season_widen";

#[derive(Clone, Debug, PartialEq)]
pub struct Numbers {
    pub presses: [u64; KEYS],
    pub packets: u64,
    pub x: i64,
    pub y: i64,
}

#[derive(Clone, Debug, PartialEq)]
pub struct Session {
    pub id: u8,
    pub events: Vec<KeyEvent>,
    pub mouse: Vec<u8>,
}

#[derive(Clone, Debug, PartialEq)]
pub struct Season {
    /// The width of the report that is told.
    pub width: &'static Width,
    /// Whether it is converted then, and nothing is added.
    pub widens: bool,
    pub from: Numbers,
    pub sessions: Vec<Session>,
}

#[derive(Clone, Debug, PartialEq)]
pub struct Reported {
    /// 0 or the number of the refusal, for each session.
    pub ends: Vec<u8>,
    pub report: Numbers,
    pub means: Option<[(i64, u64); 2]>,
    /// Whether a report was converted, which is told without its means.
    pub widened: bool,
}

fn parse_numbers(text: &str, width: &Width) -> Read<Numbers> {
    let mut numbers = Numbers { presses: [0; KEYS], packets: 0, x: 0, y: 0 };
    if text == "-" {
        return Ok(numbers);
    }
    for part in text.split(',') {
        let pair = part.split_once(':');
        let (key, value) = pair.ok_or_else(|| Bad::new(part, format!("'{part}' is no number of a report")))?;
        let count = || at_most(width.most, value);
        let sum = || match value.parse() {
            Ok(z) if (width.low..=width.high).contains(&z) => Ok(z),
            _ => Err(Bad::new(value, format!("'{value}' is no sum"))),
        };
        match key {
            "packets" => numbers.packets = count()?,
            "x" => numbers.x = sum()?,
            "y" => numbers.y = sum()?,
            _ => match hex(key, 2)? {
                key if key <= LAST_KEYCODE as u16 => numbers.presses[key as usize] = count()?,
                _ => return Err(Bad::new(key, format!("'{key}' is no keycode"))),
            },
        }
    }
    Ok(numbers)
}

fn parse_session(text: &str) -> Read<Session> {
    let [id, events, mouse] = *text.split('/').collect::<Vec<_>>() else {
        return Err(Bad::new(text, format!("'{text}' is no session")));
    };
    Ok(Session { id: identity(id)?, events: parse_events(events, MOST_CALLS)?, mouse: parse_script(mouse)? })
}

/// Reads a call line behind its name, where the name is one of a report's: NAME from=REPORT add=ID/EVENTS/HEX add=..
pub fn parse<'a>(name: &'a str, words: impl Iterator<Item = &'a str>) -> Option<Read<Call>> {
    let (width, widens) = match name {
        WIDENING => (&NARROW, true),
        _ => ([&NARROW, &LONG].into_iter().find(|width| width.name == name)?, false),
    };
    let (mut from, mut sessions) = (None, Vec::new());
    let read = (|| {
        for word in words {
            match word.split_once('=') {
                Some(("from", report)) if from.is_none() => from = Some(parse_numbers(report, width)?),
                Some(("add", session)) if !widens => sessions.push(parse_session(session)?),
                _ => return Err(Bad::new(word, format!("{name} has no '{word}'"))),
            }
        }
        from.ok_or_else(|| Bad::new(name, "the field 'from=' is missing"))
    })();
    Some(read.map(|from| Call {
        op: Op::Season(Season { width, widens, from, sessions }),
        script: Vec::new(),
        script2: None,
        room: 0,
        repeat: 1,
    }))
}

fn push_numbers(numbers: &Numbers, out: &mut impl Write) -> fmt::Result {
    write!(out, "packets:{},x:{},y:{}", numbers.packets, numbers.x, numbers.y)?;
    for (key, count) in numbers.presses.iter().enumerate().filter(|(_, &count)| count > 0) {
        write!(out, ",{key:02X}:{count}")?;
    }
    Ok(())
}

impl Season {
    pub fn name(&self) -> &'static str {
        if self.widens {
            WIDENING
        } else {
            self.width.name
        }
    }

    pub fn push_fields(&self, out: &mut String) {
        out.push_str(" from=");
        push_numbers(&self.from, out).unwrap();
        for session in &self.sessions {
            write!(out, " add={}/", session.id).unwrap();
            for (i, event) in session.events.iter().enumerate() {
                write!(out, "{}{event}", if i == 0 { "" } else { ";" }).unwrap();
            }
            out.push_str(if session.events.is_empty() { "-/" } else { "/" });
            push_script(out, &session.mouse);
        }
    }
}

impl Reported {
    pub fn ends(&self) -> &[u8] {
        &self.ends
    }
}

impl fmt::Display for Reported {
    fn fmt(&self, f: &mut fmt::Formatter) -> fmt::Result {
        f.write_str(if self.widened { "out=ok" } else { "out=" })?;
        for (i, end) in self.ends.iter().enumerate() {
            f.write_str(if i == 0 { "" } else { "," })?;
            match end {
                0 => f.write_str("ok")?,
                number => write!(f, "{number}")?,
            }
        }
        f.write_str(" ")?;
        push_numbers(&self.report, f)?;
        match self.means {
            _ if self.widened => Ok(()),
            Some([(qx, rx), (qy, ry)]) => write!(f, " mean={qx}:{rx}/{qy}:{ry}"),
            None => f.write_str(" mean=-"),
        }
    }
}
