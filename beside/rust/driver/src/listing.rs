//! Document 01's listing program over the Rust, with request 2.3's bytes that wait.
//!
//! The Rust throws unlisted bytes away; what its lamp exchanges read tells them. A byte that waits is given to its handler as
//! the first of a script, with what is left of the script behind it.

use crate::{call, kept, oracle};
use port_io::wire;
use std::io::{self, BufWriter, Read, Write};
use std::process::ExitCode;

/// The presses at which the handler reads on.
const LOCKS: [u8; 3] = [0x3A, 0x45, 0x46];

/// The events of the first 65,536 bytes of standard input.
pub fn tablekeys() -> io::Result<ExitCode> {
    let mut script = Vec::new();
    io::stdin().lock().take(65536).read_to_end(&mut script)?;
    let mut oracle = oracle::Oracle::new();
    let mut out = BufWriter::new(io::stdout().lock());
    oracle.set(&call::Handler::default());
    wire().script.clone_from(&script);
    let (mut at, mut waiting) = (0, Vec::new());
    while !waiting.is_empty() || at < script.len() {
        let end = if waiting.is_empty() && !LOCKS.contains(&script[at]) {
            let (end, _) = oracle.enter(at, 16);
            at = wire().at;
            end
        } else {
            let waited = waiting.len().min(1);
            let taken: Vec<u8> = waiting.drain(..waited).chain(script[at..].iter().copied()).collect();
            let (end, thrown) = oracle.enter_noting(taken, 16);
            at += wire().at - waited;
            waiting.extend(thrown);
            (waiting, _) = kept::keeping(waiting);
            wire().script.clone_from(&script);
            end
        };
        if end != 0 {
            writeln!(out, "refused {end}")?;
        }
        if end == 2 {
            break;
        }
        if let Some((event, character)) = oracle.take_with_character() {
            let action = if event.released { 'R' } else { 'P' };
            write!(out, "{:02X} {action} {:03X} ", event.keycode, event.flags)?;
            match character {
                Some(character) => writeln!(out, "{}", character as u32)?,
                None => writeln!(out, "-")?,
            }
        }
    }
    out.flush()?;
    Ok(ExitCode::SUCCESS)
}
