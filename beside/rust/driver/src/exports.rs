//! Calls of every export, of the library and of the small one for tests, beside the Rust; and beside plain Rust where the Rust has no such call.

use crate::answer::{Answer, Record, Value};
use crate::by_bytes::operation as by;
use crate::call::{self, Call, MouseOp, Op, ALL_FLAGS};
use crate::chance;
use crate::compare::{changed, count_answers, listed, shares, Damage, FEW};
use crate::device::Rng;
use crate::generate::{self, by_chance, sweep, Enough};
use crate::kept;
use crate::library::{self as vd, rusts, NAMES, TEST_NAMES};
use crate::mirror::Mirror;
use crate::oracle::{Glance, Oracle};
use crate::port::{Part, Port};
use crate::salvage::Salvaged;
use crate::sides::Answerer;
use crate::words::{COUNT, DISPATCHER_WORDS, HANDLER_WORDS};
use crate::{lines, plain, plain_handler, plain_report, plain_salvage, refused};
use std::collections::BTreeMap;
use std::io;
use std::process::ExitCode;
use std::time::{Duration, Instant};

/// Where a call comes from; the last are those that are refused before anything is read.
#[derive(Clone, Copy)]
enum Source {
    Sweep,
    Chance,
    Refused,
}

/// The calls that were compared.
struct Comparison {
    port: Port,
    calls: u64,
    damaged: Option<(u64, Part)>,
    /// How many calls of each export were made: of the sweep, by chance, and such as are refused before anything is read.
    made: BTreeMap<&'static str, [u64; 3]>,
    answers: BTreeMap<String, u64>,
    /// How many ports of lacks were held to the Rust's.
    ports: u64,
}

/// Ends the program, with the exit status 1.
fn differ(number: u64, line: &str, exports: &str, others: &str, other: &str) -> ! {
    println!("# the first difference: call {number}");
    println!("{line}\n# the exports\n{exports}\n# {others}\n{other}");
    std::process::exit(1)
}

/// The answer that a call must have: the Rust's, or where it has no such call plain Rust's.
fn expected(rust: &mut Oracle, call: &Call) -> Answer {
    let as_op = |op: Op| Call { op, ..call.clone() };
    match &call.op {
        Op::Handle(handler, plan) => plain_handler::run(rust, call, handler, plan),
        Op::Dispatch(told) => plain_handler::steps(rust, call, told),
        Op::ApplyPreferences(told) => plain_handler::apply(rust, call, told),
        Op::Season(season) => Answer::Reported(plain_report::season(season)),
        Op::Salvage(salvage) => {
            let (mut packets, mut positions) = (vec![0; call.room], vec![0; salvage.places]);
            let passed = plain_salvage::salvage(salvage.id, &call.script, &mut packets, &mut positions);
            packets.truncate(passed.packet_bytes);
            positions.truncate(passed.dropped);
            Answer::Salvaged(Salvaged { end: passed.number as u8, used: passed.used, packets, positions })
        }
        Op::ToAscii(keycode, flags) => rust.answer(&as_op(Op::ToAscii(*keycode, flags & ALL_FLAGS))),
        Op::KeyboardInit { two, rated } => {
            let mut answer = rust.answer(&as_op(Op::KeyboardInit { two: false, rated: false }));
            if let Answer::Call { record: Record::Handler(handler), .. } = &mut answer {
                (handler.two, handler.rated) = (*two, *rated);
            }
            answer
        }
        Op::Mouse(MouseOp::ReadSignedPacket, id) => {
            match rust.answer(&as_op(Op::Mouse(MouseOp::ReadPacket, *id))) {
                Answer::Call { end, used, log, value: Value::Packet(packet), record } => {
                    let packet = plain_handler::signed(id.unwrap_or(0), packet);
                    Answer::Call { end, used, log, value: Value::Packet(packet), record }
                }
                other => other,
            }
        }
        op if op.takes_bytes() => plain::answer(call),
        _ => rust.answer(call),
    }
}

/// Whether the port answers a call as it must: as the Rust where that has such a call, and as plain Rust; and whether the mirror answers
/// it as the Rust. If not, what is otherwise.
pub fn agree(port: &mut Port, mirror: &mut Mirror, rust: &mut Oracle, call: &Call) -> Result<(), String> {
    port.made.clear();
    let answer = port.ask(call)?;
    are_alike(answer, rust, call)?;
    mirror.agree(rust, call, false)
}

fn are_alike(answer: Answer, rust: &mut Oracle, call: &Call) -> Result<(), String> {
    let shown = |name: &str, other: &Answer| format!("# the port\n{answer}\n# {name}\n{other}");
    let expected = expected(rust, call);
    if answer != expected {
        return Err(shown(OTHERS, &expected));
    }
    if call.op.beyond_rust().is_none() {
        let theirs = rust.answer(call);
        // Bytes that wait make the port's run another one than the Rust's.
        if rust.before_waiting(call, &theirs).is_none() && answer.clone().without_additions() != theirs {
            return Err(shown("the Rust", &theirs));
        }
    }
    Ok(())
}

/// Holds the port to the Rust and to plain Rust, and the mirror to the Rust, on each call line of standard input; of lines that tell no
/// call nothing is asked.
pub fn check(damaged: Damage) -> io::Result<ExitCode> {
    let (mut port, mut mirror, mut rust) = (Port::new(0), Mirror::new(0), Oracle::new());
    let (mut lines, mut calls, mut wrong) = (0, 0, 0);
    lines::each_line(|number, line| {
        lines += 1;
        let Ok(line) = line else { return Ok(()) };
        if let Some(call) = call::parse(line).ok().filter(|_| !call::is_skipped(line)) {
            calls += 1;
            let of = |side| damaged.call == Some(calls) && damaged.side == side;
            let answer = port.ask(&call).map(|answer| if of("the port") { changed(answer) } else { answer });
            let alike = answer.and_then(|answer| are_alike(answer, &mut rust, &call));
            if let Err(why) = alike.and_then(|()| mirror.agree(&mut rust, &call, of(mirror.name()))) {
                wrong += 1;
                println!("line {number}: {line}\n{why}");
            }
        }
        Ok(())
    })?;
    println!("{lines} lines, {calls} of them calls");
    Ok(ExitCode::from((wrong > 0) as u8))
}

/// The name under which the answers of `expected` are shown.
const OTHERS: &str = "the Rust, or plain Rust";

impl Comparison {
    /// The next call begins.
    fn begin(&mut self, direct: bool) {
        self.calls += 1;
        self.port.made.clear();
        self.port.lacked = None;
        self.port.damage = match self.damaged {
            Some((call, _)) if call == self.calls && direct => Some(Part::Refusal),
            Some((call, part)) if call == self.calls => Some(part),
            _ => None,
        };
    }

    fn count(&mut self, from: Source) {
        for (name, count) in &self.port.made {
            self.made.get_mut(name).expect("an export's name")[from as usize] += count;
        }
    }

    /// Makes a call, and compares its answer.
    fn hold(&mut self, rust: &mut Oracle, mut call: Call, from: Source) {
        self.begin(false);
        // Every other reading of a packet is that with the signed wheel; what a call threw away is shown.
        call = kept::shown(call);
        if let Op::Mouse(op @ MouseOp::ReadPacket, _) = &mut call.op {
            *op = if self.calls % 2 == 0 { MouseOp::ReadSignedPacket } else { MouseOp::ReadPacket };
        }
        let answer = match self.port.ask(&call) {
            Ok(answer) => answer,
            Err(why) => differ(self.calls, &call.line(), &format!("({why})"), "and that is wrong", ""),
        };
        let answer = if self.port.damage.take().is_some() { changed(answer) } else { answer };
        self.check_port(rust, &call);
        let expected = expected(rust, &call);
        if answer != expected {
            differ(self.calls, &call.line(), &answer.to_string(), OTHERS, &expected.to_string())
        }
        count_answers(&mut self.answers, &answer);
        self.count(from);
    }

    /// The port of a lack is told by no line; where the Rust makes the same call, it is its.
    fn check_port(&mut self, rust: &mut Oracle, call: &Call) {
        let Some(port) = self.port.lacked else { return };
        let expected = match &call.op {
            Op::Mouse(MouseOp::ReadSignedPacket, _) => 0x60,
            op if op.without_show().beyond_rust().is_some() => return,
            Op::Handle(..) => {
                let theirs = rust.answer(call);
                let port = rust.port_lacked();
                // Bytes that wait make the port's run another one than the Rust's.
                if rust.before_waiting(call, &theirs).is_some() {
                    return;
                }
                port
            }
            _ => {
                rust.answer(call);
                rust.port_lacked()
            }
        };
        self.ports += 1;
        if port != expected as u32 {
            let tell = |port: u32| format!("the port {port:#x} of the read that lacks a byte");
            differ(self.calls, &call.line(), &tell(port), "the Rust", &tell(expected as u32))
        }
    }

    /// What is asked without an exchange has no line: it is held to the Rust, and so is the mirror's.
    fn glance(&mut self, rust: &mut Oracle, rng: &mut Rng) {
        type Reading = fn(&[u8]) -> vd::PortWords;
        type Mirrored = fn(&[u8], &mut [u8]) -> vd::NotedWords;
        let (what, name, told, export, mirrored): (_, _, _, Reading, Mirrored) = match rng.below(3) {
            0 => (
                Glance::KeyboardWaits,
                "vd_keyboard_waits",
                by::KEYBOARD_WAITS,
                vd::keyboard_waits,
                rusts::keyboard_waits,
            ),
            1 => (
                Glance::MouseWaits,
                "vd_mouse_waits",
                by::MOUSE_WAITS,
                vd::mouse_waits,
                rusts::mouse_waits,
            ),
            _ => (
                Glance::Scancode,
                "vd_keyboard_read_scancode",
                by::KEYBOARD_READ_SCANCODE,
                vd::keyboard_read_scancode,
                rusts::keyboard_read_scancode,
            ),
        };
        self.begin(true);
        let script: Vec<u8> = (0..rng.below(3)).map(|_| rng.next() as u8).collect();
        let answer = self.port.note(name, export(&script));
        let (end, used, value) = rust.glance(what, &script);
        let port = if end == 2 { rust.port_lacked() as u32 } else { 0 };
        let expected = vd::PortWords { refusal: end as u32, port, used, pairs: 0, value: value as u64 };
        if answer != expected {
            differ(
                self.calls,
                &format!("{name} {script:02X?}"),
                &format!("{answer:?}"),
                "the Rust",
                &format!("{expected:?}"),
            )
        }
        if let Err(why) =
            self.port.alike_by_bytes((told, 0), &script, answer, &[], &[answer.value])
        {
            differ(self.calls, &format!("{name} {script:02X?}"), &why, "and that is wrong", "")
        }
        let mirrors = mirrored(&script, &mut []).answer;
        if mirrors != expected {
            let line = format!("{name} {script:02X?}, of the mirror");
            differ(self.calls, &line, &format!("{mirrors:?}"), "the Rust", &format!("{expected:?}"))
        }
        self.count(Source::Chance);
    }

    /// The repeat byte has no line of its own.
    fn repeat(&mut self, rust: &mut Oracle, rng: &mut Rng) {
        self.begin(true);
        let byte = rng.next() as u8;
        let script = chance::exchanges(rng, 2);
        let room = if rng.once_in(3) { rng.below(12) } else { 20 };
        let mut log = vec![0; room];
        let answer = self.port.note("vd_keyboard_set_repeat", vd::keyboard_set_repeat(byte as u32, &script, &mut log));
        let told = (by::KEYBOARD_REPEAT, byte.into());
        if let Err(why) = self.port.alike_by_bytes(told, &script, answer, &log, &[]) {
            differ(self.calls, &format!("vd_keyboard_set_repeat {byte} {script:02X?}"), &why, "and that is wrong", "")
        }
        let (end, used, logged) = plain_handler::repeat(rust, byte, &script, room);
        let port = if end == 2 { rust.port_lacked() as u32 } else { 0 };
        let expected = vd::PortWords { refusal: end as u32, port, used, pairs: logged.len() / 2, value: 0 };
        log.truncate(logged.len());
        if (answer, &log) != (expected, &logged) {
            let line = format!("vd_keyboard_set_repeat {byte} {script:02X?} {room}");
            differ(self.calls, &line, &format!("{answer:?} {log:02X?}"), OTHERS, &format!("{expected:?} {logged:02X?}"))
        }
        self.count(Source::Chance);
    }

    /// Handler calls in a row, by value, in place and on the state alone, and a dispatcher's steps come to what as many calls on a lent record do.
    fn row(&mut self, rng: &mut Rng) {
        self.begin(true);
        let (times, two, rated, second) = (rng.below(140), rng.once_in(2), rng.once_in(2), rng.once_in(2));
        let scripts = [chance::keys(rng, 1), chance::keys(rng, 1)];
        let room = rng.below(8);
        let mut words = vec![0; HANDLER_WORDS];
        vd::handler_fresh(&mut words, 1 + two as u32, rated as u32);
        let mut log = vec![0; room];
        for call in 0..times {
            vd::handle(&mut words, 1 + second as u32, &scripts[call % 2], &mut log);
        }
        let expected = (words[COUNT] as usize, log);
        let calls: [(_, vd::InARow); 3] = [
            ("vdt_handler_calls_by_value", vd::handler_calls_by_value),
            ("vdt_handler_calls_in_place", vd::handler_calls_in_place),
            ("vdt_handler_calls_on_state", vd::handler_calls_on_state),
        ];
        for (name, export) in calls {
            let mut log = vec![0; room];
            let count = export(&scripts[0], &scripts[1], &mut log, times, two, rated, second);
            let count = self.port.note_count(name, count);
            self.in_a_row(name, &scripts.concat(), (count, log), &expected);
        }
        let mut words = vec![0; DISPATCHER_WORDS];
        vd::dispatcher_fresh(&mut words, 2, 0, 0);
        let scripts = [chance::keys(rng, 6), chance::keys(rng, 6), chance::keys(rng, 6)];
        let [mut log, mut own] = [vec![0; room], vec![0; room]];
        for _ in 0..times {
            vd::dispatcher_step(&mut words, &scripts[0], &scripts[1], &scripts[2], &mut log);
        }
        let count = vd::dispatcher_steps(&scripts[0], &scripts[1], &scripts[2], &mut own, times);
        let count = self.port.note_count("vdt_dispatcher_steps", count);
        self.in_a_row("vdt_dispatcher_steps", &scripts.concat(), (count, own), &(words[COUNT] as usize, log));
        self.count(Source::Chance);
    }

    fn in_a_row(&self, name: &str, script: &[u8], answer: (usize, Vec<u8>), expected: &(usize, Vec<u8>)) {
        if answer != *expected {
            let line = format!("{name} {script:02X?}");
            differ(self.calls, &line, &format!("{answer:02X?}"), "calls on a lent record", &format!("{expected:02X?}"))
        }
    }

    fn refused(&mut self, kind: usize) {
        self.begin(true);
        if let Err(why) = refused::check(kind, &mut self.port) {
            differ(self.calls, "a call that is refused before anything is read", &why, "and that is wrong", "")
        }
        self.count(Source::Refused);
    }
}

/// What a call by chance is.
#[derive(Clone, Copy)]
enum Kind {
    /// One of the driver's, over a device that it made up.
    Driver(usize),
    /// One that the Rust hasn't.
    Own(usize),
    Glance,
    Repeat,
    Row,
    Refused(usize),
}

/// Each kind, as often as it comes.
fn kinds() -> Vec<Kind> {
    let mut kinds = Vec::new();
    for kind in 0..generate::KINDS {
        let often = if kind >= generate::KINDS - 2 { 8 } else { 2 };
        kinds.extend(vec![Kind::Driver(kind); often]);
    }
    for (own, (_, often)) in chance::KINDS.iter().enumerate() {
        kinds.extend(vec![Kind::Own(own); *often]);
    }
    kinds.extend([Kind::Glance; 4]);
    kinds.extend([Kind::Repeat; 3]);
    kinds.push(Kind::Row);
    kinds.extend((0..refused::KINDS).map(Kind::Refused));
    kinds
}

/// Compares so many calls. A part of what the exports gave to call `damaged` is changed on its way, so that a comparison can be seen to find it.
/// Where one operation is named, the calls are its alone.
pub fn compare(calls: u64, seed: u64, damaged: Option<(u64, Part)>, only: Option<&str>) -> io::Result<ExitCode> {
    let is_wanted = |op: &Op| only.is_none_or(|name| op.name() == name);
    let start = Instant::now();
    let mut told = start;
    let mut one = Comparison {
        port: Port::new(seed.wrapping_mul(0x9E37_79B9)),
        calls: 0,
        damaged,
        made: NAMES.iter().chain(TEST_NAMES).map(|&name| (name, [0; 3])).collect(),
        answers: BTreeMap::new(),
        ports: 0,
    };
    let mut tell = |done: u64| {
        if told.elapsed() >= Duration::from_secs(5) {
            told = Instant::now();
            let rate = done as f64 / start.elapsed().as_secs_f64();
            eprintln!("exports: {done} of {calls} calls, {rate:.0} a second, no difference");
        }
    };
    let mut rust = Oracle::new();
    let mut rng = Rng(seed);
    let mut lengths = BTreeMap::new();
    let counted = sweep(&mut rust, &mut |_, op, _| {
        if is_wanted(op) {
            *lengths.entry(op.name()).or_default() += 1;
        }
        Ok(())
    });
    assert!(counted.is_ok());
    // Of each operation how many calls of the sweep are still to come, and how many of these are to be taken: each has the
    // same chance.
    let all: u64 = lengths.values().sum();
    let mut ahead = lengths.clone();
    let mut wanted = shares(&lengths, calls);
    let going = sweep(&mut rust, &mut |rust, op, make| {
        if !is_wanted(op) {
            return Ok(());
        }
        let (ahead, wanted) = (ahead.get_mut(op.name()).unwrap(), wanted.get_mut(op.name()).unwrap());
        let is_taken = (rng.below(*ahead as usize) as u64) < *wanted;
        *ahead -= 1;
        *wanted -= is_taken as u64;
        if is_taken {
            let call = make(rust);
            one.hold(rust, call, Source::Sweep);
            tell(one.calls);
        }
        Ok::<(), Enough>(())
    });
    assert!(going.is_ok());
    let swept = one.calls;
    // Each kind in turn, then any.
    let kinds = kinds();
    let mut turn = 0;
    while one.calls < calls {
        let kind = kinds.get(turn).copied().unwrap_or_else(|| rng.pick(&kinds));
        turn += 1;
        match kind {
            Kind::Driver(kind) => {
                let call = by_chance(&mut rust, kind, &mut rng);
                if is_wanted(&call.op) {
                    one.hold(&mut rust, call, Source::Chance)
                }
            }
            Kind::Own(own) => {
                let call = chance::KINDS[own].0(&mut rng);
                if is_wanted(&call.op) {
                    one.hold(&mut rust, call, Source::Chance)
                }
            }
            _ if only.is_some() => {}
            Kind::Glance => one.glance(&mut rust, &mut rng),
            Kind::Repeat => one.repeat(&mut rust, &mut rng),
            Kind::Row => one.row(&mut rng),
            Kind::Refused(kind) => one.refused(kind),
        };
        tell(one.calls);
    }
    let Comparison { made, answers, ports, .. } = one;
    let seconds = start.elapsed().as_secs();
    println!("exports: {calls} calls, seed {seed}, no difference: {swept} of the sweep's {all}, the others by chance; {seconds} s");
    for (name, [swept, chance, refused]) in made.iter().filter(|(_, counts)| only.is_none() || **counts != [0; 3]) {
        println!(
            "exports: {name}: {swept} in the sweep, {chance} by chance, {refused} refused before anything is read"
        );
    }
    println!("exports: answers {}; {ports} ports of lacks are the Rust's", listed(&answers));
    let uncalled: Vec<&str> =
        made.iter().filter(|(_, [swept, chance, _])| swept + chance == 0).map(|(&name, _)| name).collect();
    if calls >= FEW && only.is_none() && !uncalled.is_empty() {
        println!("# never called: {}", uncalled.join(", "));
        return Ok(ExitCode::from(1));
    }
    Ok(ExitCode::SUCCESS)
}
