//! The port's other ways to pass a record, by value and in place: on the record that lent numbers stand for, a handler call and a taking
//! come to what they come to on the numbers.

use crate::library::{self as vd, *};
use crate::port::Port;
use crate::words;

/// Each way, by its export's name; first that on the numbers themselves.
pub const HANDLINGS: [(&str, Handling); 3] = [
    ("vd_handle", vd::handle),
    ("vdt_handle_by_value", vd::handle_by_value),
    ("vdt_handle_in_place", vd::handle_in_place),
];
pub const TAKINGS: [(&str, Taking); 2] = [("vd_take", vd::take), ("vdt_take_by_value", vd::take_by_value)];

/// Whether one way left the numbers that it must: those of the record that the call on the numbers left, and where they fit no record
/// those that were lent.
fn left(name: &str, before: &[u64], after: &[u64], words: &[u64]) -> Result<(), String> {
    let expected = if words::fit(before) { words::as_stored(after) } else { before.to_vec() };
    match words::first_wrong(&expected, words) {
        Some(wrong) => Err(format!("{name}: {wrong}")),
        None => Ok(()),
    }
}

impl Port {
    /// A handler call on these numbers and in this log came to an answer, numbers and a log: so does each other way.
    pub fn handled_alike(
        &mut self,
        side: u32,
        (before, lent): (&[u64], Vec<u8>),
        script: &[u8],
        (answer, after, logged): (HandledWords, &[u64], &[u8]),
    ) -> Result<(), String> {
        for &(name, handle) in &HANDLINGS[1..] {
            let (mut words, mut log) = (before.to_vec(), lent.clone());
            let own = handle(&mut words, side, script, &mut log);
            let own = self.note(name, own);
            if (own, &log[..]) != (answer, logged) {
                return Err(format!("{name}: {own:?} {log:02X?}, and not {answer:?} {logged:02X?}"));
            }
            left(name, before, after, &words)?;
        }
        Ok(())
    }

    /// The same of a taking.
    pub fn taken_alike(&mut self, before: &[u64], answer: TakenWords, after: &[u64]) -> Result<(), String> {
        for &(name, take) in &TAKINGS[1..] {
            let mut words = before.to_vec();
            let own = self.note(name, take(&mut words));
            if own != answer {
                return Err(format!("{name}: {own:?}, and not {answer:?}"));
            }
            left(name, before, after, &words)?;
        }
        Ok(())
    }
}
