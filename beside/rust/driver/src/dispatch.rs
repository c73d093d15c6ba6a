//! A dispatcher's steps: their call line, and their answer. The Rust has no dispatcher.

use crate::answer::{Done, Packet};
use crate::call::*;
use std::fmt::{self, Write};

pub const NAME: &str = "dispatch";

/// The mouse's number among the sources; the sides are 1 and 2.
const MOUSE: u8 = 3;

/// What stands in a call line beside side 1's script, which is the call's, side 2's, its second, and the log's room.
#[derive(Clone, Debug, PartialEq)]
pub struct Dispatch {
    pub handler: Handler,
    pub id: u8,
    /// The source served last, 0 where none was.
    pub last: u8,
    pub places: [u64; 3],
    /// The mouse's script.
    pub script3: Vec<u8>,
    pub moves: Vec<Move>,
}

/// A part of `steps=`: so many steps, or a taking.
#[derive(Clone, Copy, Debug, PartialEq)]
pub enum Move {
    Steps(u64),
    Take,
}

#[derive(Clone, Debug, PartialEq)]
pub struct Dispatched {
    pub made: Vec<Made>,
    pub last: u8,
    pub places: [u64; 3],
    pub left: Handler,
}

/// What a step or a taking gave.
#[derive(Clone, Debug, PartialEq)]
pub enum Made {
    /// A handler call, or a taking.
    Key(Done),
    Packet {
        /// 0, or the number of the refusal.
        end: u8,
        used: usize,
        packet: Packet,
    },
    Idle,
}

/// Reads a call line behind its name.
pub fn parse<'a>(name: &'a str, words: impl Iterator<Item = &'a str>) -> Read<Call> {
    let keys = ["state", "script1", "script2", "script3", "log", "steps"];
    let told = fields(words, name, keys)?;
    let field = |at: usize| needed(name, keys[at], told[at]);
    let mut dispatch = parse_state(field(0)?)?;
    dispatch.script3 = parse_script(field(3)?)?;
    let mut left = MOST_CALLS;
    for part in field(5)?.split(',') {
        dispatch.moves.push(match part {
            "t" => Move::Take,
            count => Move::Steps(at_most(left, count)?),
        });
        left -= if let Some(Move::Steps(count)) = dispatch.moves.last() { *count } else { 0 };
    }
    Ok(Call {
        op: Op::Dispatch(Box::new(dispatch)),
        script: parse_script(field(1)?)?,
        script2: Some(parse_script(field(2)?)?),
        room: room(field(4)?)?,
        repeat: 1,
    })
}

/// A state: the handler record's fields, and the dispatcher's own.
fn parse_state(state: &str) -> Read<Dispatch> {
    let is_own = |key: &str| ["id", "last", "at"].contains(&key);
    let record = pairs(Some(state)).filter(|pair| !matches!(pair, Ok((key, _)) if is_own(key)));
    let handler = parse_handler(record)?;
    let (moves, script3) = (Vec::new(), Vec::new());
    let mut dispatch = Dispatch { handler, id: 0, last: 0, places: [0; 3], script3, moves };
    for pair in pairs(Some(state)) {
        match pair? {
            ("id", id) => dispatch.id = identity(id)?,
            ("last", last) => dispatch.last = at_most(3, last)? as u8,
            ("at", places) => {
                let numbers = places.split('.').map(decimal).collect::<Read<Vec<_>>>()?;
                let three = numbers.try_into();
                dispatch.places = three.map_err(|_| Bad::new(places, format!("'{places}' are not three places")))?;
            }
            _ => {}
        }
    }
    Ok(dispatch)
}

impl Dispatch {
    pub fn push_fields(&self, call: &Call, out: &mut String) {
        push_handler_state(out, &self.handler);
        let [one, two, three] = self.places;
        write!(out, ",id:{},last:{},at:{one}.{two}.{three}", self.id, self.last).unwrap();
        let scripts = [&call.script, call.script2.as_ref().unwrap_or(&Vec::new()), &self.script3].map(Clone::clone);
        for (number, script) in (1..).zip(scripts) {
            write!(out, " script{number}=").unwrap();
            push_script(out, &script);
        }
        write!(out, " log={} steps=", call.room).unwrap();
        for (i, one) in self.moves.iter().enumerate() {
            out.push_str(if i == 0 { "" } else { "," });
            match one {
                Move::Steps(count) => write!(out, "{count}").unwrap(),
                Move::Take => out.push('t'),
            }
        }
    }
}

impl Dispatched {
    /// How the calls of the steps ended, and a failed lamp exchange by its number.
    pub fn ends(&self) -> impl Iterator<Item = u8> + '_ {
        self.made.iter().flat_map(|made| match made {
            Made::Key(Done::Handled { end, lamps_failed: true, .. }) => vec![*end, 14],
            Made::Key(Done::Handled { end, .. }) | Made::Packet { end, .. } => vec![*end],
            Made::Key(_) | Made::Idle => Vec::new(),
        })
    }
}

impl fmt::Display for Made {
    fn fmt(&self, f: &mut fmt::Formatter) -> fmt::Result {
        match self {
            // A call is told as that of a run, with the side's number in the place of its letter.
            Made::Key(done @ Done::Handled { side, .. }) => {
                write!(f, "{}{}", *side as u8 + 1, &done.to_string()[1..])
            }
            Made::Key(done) => write!(f, "{done}"),
            Made::Packet { end: 0, used, packet } => {
                let fields = packet.to_string().replace(',', "+").replace(':', "");
                write!(f, "{MOUSE}:{used}:{fields}")
            }
            Made::Packet { end, used, .. } => write!(f, "{MOUSE}:{used}:refused{end}"),
            Made::Idle => f.write_str("idle"),
        }
    }
}

impl fmt::Display for Dispatched {
    fn fmt(&self, f: &mut fmt::Formatter) -> fmt::Result {
        f.write_str("out=ok steps=")?;
        for (i, one) in self.made.iter().enumerate() {
            write!(f, "{}{one}", if i == 0 { "" } else { "," })?;
        }
        let [one, two, three] = self.places;
        write!(f, " last={} at={one}.{two}.{three} rec={}", self.last, self.left)
    }
}
