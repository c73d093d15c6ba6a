//! An answer: what the Rust or the port gave to a call. It is written as a line of the trace format (tests/traces/README.md).

use crate::call::*;
use crate::dispatch::Dispatched;
use crate::kept::Kept;
use crate::prefs_code::FieldsRead;
use crate::report::Reported;
use crate::salvage::Salvaged;
use std::fmt;

/// The answer to a call, or to a run of handler calls.
#[derive(Clone, Debug, PartialEq)]
pub enum Answer {
    Call {
        /// 0, or the number of the refusal.
        end: u8,
        used: usize,
        log: Vec<u8>,
        value: Value,
        record: Record,
    },
    Run {
        done: Vec<Done>,
        left: Handler,
    },
    Salvaged(Salvaged),
    Dispatched(Dispatched),
    Fields(FieldsRead),
    Reported(Reported),
    /// Of an operation on lent bytes: the input's bytes used, where it counts them, and those written to the output.
    Bytes {
        end: u8,
        used: Option<usize>,
        bytes: Vec<u8>,
    },
    Kept(Kept),
}

/// What a call answers beside its end.
#[derive(Clone, Debug, PartialEq)]
pub enum Value {
    Nothing,
    Byte(u8),
    Keyboard(Keyboard),
    Packet(Packet),
    Character(Option<u8>),
}

#[derive(Clone, Copy, Debug, PartialEq)]
pub enum Keyboard {
    Plain,
    Translated,
    Ancient,
}

#[derive(Clone, Copy, Debug, PartialEq)]
pub struct Packet {
    /// Left, right, middle, always one, buttons 4 and 5.
    pub bits: [bool; 6],
    /// To the right, up, and of the wheel.
    pub movements: [i32; 3],
}

/// The record that a call leaves.
#[derive(Clone, Debug, PartialEq)]
pub enum Record {
    Nothing,
    Controller(Controller),
    Mouse(u8),
    Handler(Handler),
    NoHandler,
}

/// One call of a run.
#[derive(Clone, Debug, PartialEq)]
pub enum Done {
    Handled {
        side: Side,
        used: usize,
        log: Vec<u8>,
        end: u8,
        lamps_failed: bool,
        /// How many bytes of the lamp exchange found no place to wait.
        dropped: u32,
    },
    Taken(Option<KeyEvent>),
    /// A taking that was refused with this number.
    NotTaken(u8),
}

impl Answer {
    /// The answer as the Rust has it, without what requests added: ALT_RIGHT, the eleventh flag, the second keyboard, the bytes that
    /// wait and the number of those that were dropped are taken off here, and nowhere else.
    pub fn without_additions(self) -> Answer {
        let event = |event: KeyEvent| KeyEvent { flags: event.flags & ALL_FLAGS, ..event };
        match self {
            Answer::Run { done, left } => Answer::Run {
                done: done
                    .into_iter()
                    .map(|one| match one {
                        Done::Taken(taken) => Done::Taken(taken.map(event)),
                        Done::Handled { side, used, log, end, lamps_failed, .. } => {
                            Done::Handled { side, used, log, end, lamps_failed, dropped: 0 }
                        }
                        other => other,
                    })
                    .collect(),
                left: left.without_additions(),
            },
            other => other,
        }
    }
}

impl Keyboard {
    pub const ALL: [Keyboard; 3] = [Keyboard::Plain, Keyboard::Translated, Keyboard::Ancient];

    fn name(self) -> &'static str {
        ["plain", "translated", "ancient"][self as usize]
    }
}

/// The names of a packet's fields in a line, in its order; the three movements stand between the bits.
const BITS: [&str; 6] = ["left", "right", "middle", "one", "b4", "b5"];
const MOVEMENTS: [&str; 3] = ["x", "y", "wheel"];

impl fmt::Display for Packet {
    fn fmt(&self, f: &mut fmt::Formatter) -> fmt::Result {
        let bits = BITS.into_iter().zip(self.bits.map(i32::from));
        let movements = MOVEMENTS.into_iter().zip(self.movements);
        for (i, (name, value)) in bits.clone().take(4).chain(movements).chain(bits.skip(4)).enumerate() {
            write!(f, "{}{name}:{value}", if i == 0 { "" } else { "," })?;
        }
        Ok(())
    }
}

impl fmt::Display for Value {
    fn fmt(&self, f: &mut fmt::Formatter) -> fmt::Result {
        match self {
            Value::Nothing => Ok(()),
            Value::Byte(byte) => write!(f, " val={byte:02X}"),
            Value::Keyboard(keyboard) => write!(f, " val={}", keyboard.name()),
            Value::Packet(packet) => write!(f, " val={packet}"),
            Value::Character(Some(character)) => write!(f, " val={character}"),
            Value::Character(None) => f.write_str(" val=-"),
        }
    }
}

impl fmt::Display for Record {
    fn fmt(&self, f: &mut fmt::Formatter) -> fmt::Result {
        match self {
            Record::Nothing => f.write_str("-"),
            Record::Controller(controller) => write!(f, "{controller}"),
            Record::Mouse(id) => write!(f, "id:{id}"),
            Record::Handler(handler) => write!(f, "{handler}"),
            Record::NoHandler => f.write_str("none"),
        }
    }
}

impl fmt::Display for Done {
    fn fmt(&self, f: &mut fmt::Formatter) -> fmt::Result {
        match self {
            Done::Handled { side, used, log, end, lamps_failed, dropped } => {
                let letter = match side {
                    Side::First => 'h',
                    Side::Second => 'g',
                };
                write!(f, "{letter}:{used}:{}:{}:", log.len() / 2, Hex(log))?;
                match end {
                    0 => f.write_str("ok")?,
                    number => write!(f, "{number}")?,
                }
                f.write_str(if *lamps_failed { "+14" } else { "" })?;
                match dropped {
                    0 => Ok(()),
                    dropped => write!(f, "~{dropped}"),
                }
            }
            Done::Taken(Some(event)) => write!(f, "t:{event}"),
            Done::Taken(None) => f.write_str("t:none"),
            Done::NotTaken(number) => write!(f, "t:{number}"),
        }
    }
}

/// How a call ended: well, or refused by a number.
fn write_end(f: &mut fmt::Formatter, end: u8) -> fmt::Result {
    match end {
        0 => f.write_str("out=ok"),
        number => write!(f, "out=refused:{number}"),
    }
}

impl fmt::Display for Answer {
    fn fmt(&self, f: &mut fmt::Formatter) -> fmt::Result {
        match self {
            Answer::Call { end, used, log, value, record } => {
                write_end(f, *end)?;
                write!(f, " used={used} wrote={} log={}{value} rec={record}", log.len() / 2, Hex(log))
            }
            Answer::Bytes { end, used, bytes } => {
                write_end(f, *end)?;
                if let Some(used) = used {
                    write!(f, " used={used}")?;
                }
                write!(f, " wrote={} bytes={}", bytes.len(), Hex(bytes))
            }
            Answer::Run { done, left } => {
                let (used, pairs) = counts(done);
                write!(f, "out=ok used={used} wrote={pairs} calls=")?;
                for (i, d) in done.iter().enumerate() {
                    write!(f, "{}{d}", if i == 0 { "" } else { "," })?;
                }
                write!(f, "{} rec={left}", if done.is_empty() { "-" } else { "" })
            }
            Answer::Salvaged(salvaged) => write!(f, "{salvaged}"),
            Answer::Dispatched(dispatched) => write!(f, "{dispatched}"),
            Answer::Fields(read) => write!(f, "{read}"),
            Answer::Reported(reported) => write!(f, "{reported}"),
            Answer::Kept(kept) => write!(f, "{kept}"),
        }
    }
}

/// The script bytes that the calls of a run used, and the pairs that they wrote.
pub fn counts(done: &[Done]) -> (usize, usize) {
    let handled = done.iter().filter_map(|d| match d {
        Done::Handled { used, log, .. } => Some((used, log.len() / 2)),
        Done::Taken(_) | Done::NotTaken(_) => None,
    });
    handled.fold((0, 0), |sums, (used, pairs)| (sums.0 + used, sums.1 + pairs))
}

/// Whether two answer lines say the same. Of a run the first word says nothing: what ended it stands among its calls.
pub fn alike(one: &str, other: &str) -> bool {
    let said = |line: &str| match line.contains(" calls=") {
        true => line.split_once(' ').map_or(line, |(_, rest)| rest).to_string(),
        false => line.to_string(),
    };
    said(one) == said(other)
}
