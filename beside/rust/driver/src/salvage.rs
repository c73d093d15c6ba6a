//! A pass over a mouse's recording: its call line, and its answer. The Rust has no such call.

use crate::call::{fields, identity, needed, parse_script, push_script, room, Bad, Call, Hex, Op, Read};
use std::fmt::{self, Write};

pub const NAME: &str = "salvage";

/// What stands in a call line beside the recording and the room of the packets, which are the call's script and room.
#[derive(Clone, Copy, Debug, PartialEq)]
pub struct Salvage {
    pub id: u8,
    pub places: usize,
}

#[derive(Clone, Debug, PartialEq)]
pub struct Salvaged {
    /// 0, or the number of the refusal.
    pub end: u8,
    pub used: usize,
    pub packets: Vec<u8>,
    pub positions: Vec<u64>,
}

/// Reads a call line behind its name: salvage ID in=HEX packets=N positions=N.
pub fn parse<'a>(name: &'a str, mut words: impl Iterator<Item = &'a str>) -> Read<Call> {
    let id = identity(words.next().ok_or_else(|| Bad::new(name, format!("{name} takes an identity")))?)?;
    let keys = ["in", "packets", "positions"];
    let [input, packets, positions] = fields(words, name, keys)?;
    Ok(Call {
        op: Op::Salvage(Salvage { id, places: room(needed(name, "positions", positions)?)? }),
        script: parse_script(needed(name, "in", input)?)?,
        script2: None,
        room: room(needed(name, "packets", packets)?)?,
        repeat: 1,
    })
}

impl Salvage {
    pub fn push_fields(&self, call: &Call, out: &mut String) {
        write!(out, " {} in=", self.id).unwrap();
        push_script(out, &call.script);
        write!(out, " packets={} positions={}", call.room, self.places).unwrap();
    }
}

impl fmt::Display for Salvaged {
    fn fmt(&self, f: &mut fmt::Formatter) -> fmt::Result {
        match self.end {
            0 => f.write_str("out=ok")?,
            number => write!(f, "out=refused:{number}")?,
        }
        write!(f, " used={} packets={} positions=", self.used, Hex(&self.packets))?;
        for (i, position) in self.positions.iter().enumerate() {
            write!(f, "{}{position}", if i == 0 { "" } else { "," })?;
        }
        f.write_str(if self.positions.is_empty() { "-" } else { "" })
    }
}
