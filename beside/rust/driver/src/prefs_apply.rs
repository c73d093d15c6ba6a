//! Preferences: a record's version and fields as a call line has them. The Rust has none.

use crate::call::{at_most, Bad, Read};
use std::fmt;

pub const NAME: &str = "prefs_apply";

/// A record: four fields in version 1, and five in version 2.
#[derive(Clone, Debug, PartialEq)]
pub struct Preferences {
    pub version: u8,
    pub fields: Vec<u32>,
}

impl Preferences {
    /// Reads a version and its fields, decimal and joined by commas.
    pub fn parse(version: &str, fields: &str) -> Read<Preferences> {
        let (number, count) = match version {
            "1" => (1, 4),
            "2" => (2, 5),
            _ => return Err(Bad::new(version, format!("'{version}' is no version"))),
        };
        let each = fields.split(',').map(|field| Ok(at_most(u32::MAX.into(), field)? as u32));
        let told = each.collect::<Read<Vec<u32>>>()?;
        match told.len() == count {
            true => Ok(Preferences { version: number, fields: told }),
            false => Err(Bad::new(fields, format!("version {version} has {count} fields, not {}", told.len()))),
        }
    }
}

impl fmt::Display for Preferences {
    fn fmt(&self, f: &mut fmt::Formatter) -> fmt::Result {
        write!(f, "{} ", self.version)?;
        for (i, field) in self.fields.iter().enumerate() {
            write!(f, "{}{field}", if i == 0 { "" } else { "," })?;
        }
        Ok(())
    }
}
