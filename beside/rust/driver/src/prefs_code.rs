//! Preferences written and read as bytes: the fields that a reading gives, as an answer line has them. The Rust has no such calls.

use std::fmt;

pub const WRITE: &str = "prefs_write";
pub const READ_1: &str = "prefs_read1";
pub const READ_2: &str = "prefs_read2";

/// What a reader gives.
#[derive(Clone, Debug, PartialEq)]
pub struct FieldsRead {
    /// 0, or the number of the refusal.
    pub end: u8,
    pub fields: Vec<u32>,
}

impl fmt::Display for FieldsRead {
    fn fmt(&self, f: &mut fmt::Formatter) -> fmt::Result {
        match self.end {
            0 => f.write_str("out=ok")?,
            number => write!(f, "out=refused:{number}")?,
        }
        for (i, field) in self.fields.iter().enumerate() {
            write!(f, "{}{field}", if i == 0 { " fields=" } else { "," })?;
        }
        Ok(())
    }
}
