//! Lists the key events of the scancodes on standard input, as the program tablekeys does: keycode, P or R, flags, ASCII.
//! The first 65,536 bytes are the script; more are ignored.

use std::io::{self, BufWriter, Read, Write};
use vurdellow::{Event, Handler, Keyboards, Profile, Side, HANDLER_LOG};

fn print_event(out: &mut impl Write, event: Event) -> io::Result<()> {
    let letter = if event.is_press() { 'P' } else { 'R' };
    write!(out, "{:02X} {letter} {:03X} ", event.keycode.number(), event.modifiers.bits())?;
    match event.character() {
        Some(character) => writeln!(out, "{}", u32::from(character)),
        None => writeln!(out, "-"),
    }
}

fn main() -> io::Result<()> {
    let mut script = Vec::new();
    io::stdin().take(65_536).read_to_end(&mut script)?;
    let mut out = BufWriter::new(io::stdout());
    let mut handler = Handler::new(Keyboards::One, Profile::Any);
    let mut log = [0; HANDLER_LOG];
    let mut rest = &script[..];
    // Until the script is used, and no byte waits that a lamp exchange caught.
    while !rest.is_empty() || handler.waiting_bytes(Side::First) > 0 {
        let done = match handler.handle(Side::First, rest, &mut log) {
            Ok(done) => done,
            Err(refused) => {
                writeln!(out, "refused {}", refused.number())?;
                // The script ends inside a lamp exchange.
                if refused.refusal.is_lack() {
                    break;
                }
                refused.done
            }
        };
        rest = &rest[done.used..];
        for event in handler.events() {
            print_event(&mut out, event)?;
        }
    }
    out.flush()
}
