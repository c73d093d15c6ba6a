//! A table with two keyboards and a mouse, served by turns: lists each event with its side, and each packet, in the order of service, and
//! says why the steps end.
//!
//! `table FIRST SECOND MOUSE [IDENTITY]` takes the three scripts from files; without arguments they are a sample. With `--one` before them
//! the table has one keyboard only, so that bytes of side 2 are refused.

use std::error::Error;
use std::fs;
use std::io::{self, BufWriter, Write};
use vurdellow::{Dispatcher, Event, Identity, Keyboards, Outcome, Packet, Profile, Refusal, Side, Step, HANDLER_LOG};

/// Side 1 presses Caps Lock, and A during its lamp exchange; then releases A. Side 2 presses B and releases it. The mouse moves.
const SAMPLE: [&[u8]; 3] = [
    &[0x3A, 0x00, 0x01, 0x1E, 0x01, 0xFA, 0x00, 0x01, 0xFA, 0x9E],
    &[0x30, 0xB0],
    &[0x09, 0x05, 0x00, 0x08, 0x00, 0x05],
];

const USAGE: &str = "usage: table [--one] [FIRST SECOND MOUSE [IDENTITY]], with an identity of 0, 3 or 4";

fn print_event(out: &mut impl Write, event: Event) -> io::Result<()> {
    let letter = if event.is_press() { 'P' } else { 'R' };
    write!(
        out,
        "side {}: {:02X} {letter} {:03X} ",
        event.side.number(),
        event.keycode.number(),
        event.modifiers.bits()
    )?;
    match event.character() {
        Some(character) => writeln!(out, "{character:?}"),
        None => writeln!(out, "{:?}", event.keycode),
    }
}

fn print_packet(out: &mut impl Write, packet: Packet) -> io::Result<()> {
    write!(out, "mouse: x {} y {} wheel {}", packet.x, packet.y, packet.wheel)?;
    let buttons = [
        (packet.left(), "left"),
        (packet.right(), "right"),
        (packet.middle(), "middle"),
        (packet.fourth(), "fourth"),
        (packet.fifth(), "fifth"),
    ];
    for (_, name) in buttons.iter().filter(|(pressed, _)| *pressed) {
        write!(out, " {name}")?;
    }
    writeln!(out)
}

/// Steps until nobody waits, or until a whole round used no byte and took no waiting byte, and says why it ends.
fn serve(out: &mut impl Write, table: &mut Dispatcher, [first, second, third]: [&[u8]; 3]) -> io::Result<()> {
    let mut log = [0; HANDLER_LOG];
    // The refusals of the steps in a row that got nobody on. Who goes on waiting is served within three, so three are a whole round.
    let mut stuck: Vec<(Side, Refusal)> = Vec::new();
    while stuck.len() < 3 {
        let step = table.step(first, second, third, &mut log);
        match step {
            Step::Idle => return writeln!(out, "Nobody waits."),
            Step::Packet(Ok(read)) => print_packet(out, read.value)?,
            Step::Packet(Err(refused)) => writeln!(out, "mouse: {refused}")?,
            Step::Key(side, call) => {
                if let Some(refusal) = call.refusal() {
                    writeln!(out, "side {}: {refusal}", side.number())?;
                    stuck.push((side, refusal));
                }
            }
        }
        if step.is_progress() {
            stuck.clear();
        }
        for event in table.events() {
            print_event(out, event)?;
        }
    }
    writeln!(out, "A whole round used no byte and took no waiting byte, and idle would never come:")?;
    stuck.sort_by_key(|(side, _)| *side);
    stuck.dedup();
    for (side, refusal) in stuck {
        writeln!(
            out,
            "side {} waits, with {} waiting bytes, and is {refusal}",
            side.number(),
            table.waiting_bytes(side)
        )?;
    }
    Ok(())
}

fn main() -> Result<(), Box<dyn Error>> {
    let mut arguments: Vec<String> = std::env::args().skip(1).collect();
    let keyboards = if arguments.first().is_some_and(|word| word == "--one") {
        arguments.remove(0);
        Keyboards::One
    } else {
        Keyboards::Two
    };
    let (scripts, identity) = match arguments.iter().map(String::as_str).collect::<Vec<_>>()[..] {
        [] => (SAMPLE.map(<[u8]>::to_vec), "0"),
        [first, second, mouse] => ([fs::read(first)?, fs::read(second)?, fs::read(mouse)?], "0"),
        [first, second, mouse, identity] => ([fs::read(first)?, fs::read(second)?, fs::read(mouse)?], identity),
        _ => return Err(USAGE.into()),
    };
    let identity = match identity {
        "0" => Identity::NoWheel,
        "3" => Identity::Wheel,
        "4" => Identity::FiveButtons,
        _ => return Err(USAGE.into()),
    };
    let mut out = BufWriter::new(io::stdout());
    let mut table = Dispatcher::new(keyboards, Profile::Any, identity);
    serve(&mut out, &mut table, [&scripts[0], &scripts[1], &scripts[2]])?;
    Ok(out.flush()?)
}
