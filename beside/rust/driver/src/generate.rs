//! Calls of every operation: a sweep that leaves nothing out, and calls by chance.

use crate::answer::Answer;
use crate::call::*;
use crate::device::*;
use crate::oracle::Oracle;
use std::collections::{BTreeMap, BTreeSet};

/// The longest script that a device makes up: longer than the longest exchange.
const LONGEST_SCRIPT: usize = 1_199_999;

/// How many bytes for a device are answered badly: fewer than its attempts, all four, the next command's too, all.
const TIMES: [usize; 5] = [1, 3, 4, 5, 1000];

/// The number of operations.
pub const KINDS: usize = 31;

/// Those of many steps: initialisation, scancode set, type, identity, keyboard initialisation, the handler.
const MANY_STEPS: [usize; 8] = [0, 13, 15, 25, 27, 29, 30, 30];

pub fn kind_by_chance(rng: &mut Rng) -> usize {
    if rng.once_in(2) {
        rng.pick(&MANY_STEPS)
    } else {
        rng.below(KINDS)
    }
}

/// An operation of a kind, its arguments and state by chance.
pub fn operation(kind: usize, rng: &mut Rng) -> Op {
    use KeyboardOp as K;
    use MouseOp as M;
    let set = rng.below(4) as u8;
    let lamps = rng.below(8) as u8;
    let rate = rng.pick(&RATES);
    let mouse = |op| Op::Mouse(op, Some([0, 3, 4][set as usize % 3]));
    match kind {
        0 => Op::Init(controller(rng)),
        1 => Op::ControllerTest,
        2 => Op::TestPort1,
        3 => Op::TestPort2,
        4 => Op::ReadConfig,
        5 => Op::WriteConfig(rng.next() as u8),
        6 => Op::PollingSend(set),
        7 => Op::PollingReceive,
        8 => Op::Keyboard(K::Command(rng.pick(&KEYBOARD_COMMANDS))),
        9 => Op::Keyboard(K::DataSet(set)),
        10 => Op::Keyboard(K::DataLed(lamps)),
        11 => Op::Keyboard(K::Reset),
        12 => Op::Keyboard(K::SetLed(lamps)),
        13 => Op::Keyboard(K::SetScancodeSet(set)),
        14 => Op::Keyboard(K::GetScancodeSet),
        15 => Op::Keyboard(K::Detect),
        16 => mouse(M::Command(rng.pick(&MOUSE_COMMANDS))),
        17 => mouse(M::DataRate(rate)),
        18 => mouse(M::DataResolution(lamps % 4)),
        19 => mouse(M::Reset),
        20 => mouse(M::Enable),
        21 => mouse(M::Disable),
        22 => mouse(M::SetSamplingRate(rate)),
        23 => mouse(M::Resolution(lamps % 4)),
        24 => mouse(M::Id),
        25 => mouse(M::SetId),
        26 => mouse(M::ReadPacket),
        27 => Op::KeyboardInit { two: false, rated: false },
        28 => Op::ToAscii(rng.below(LAST_KEYCODE as usize + 1) as u8, rng.below(ALL_FLAGS as usize + 1) as u16),
        // The handler twice: its states and plans are the most.
        _ => Op::Handle(handler(rng), plan(rng)),
    }
}

fn controller(rng: &mut Rng) -> Controller {
    let bits = rng.below(4);
    Controller { init: rng.once_in(16), kbd: bits & 1 != 0, mouse: bits & 2 != 0 }
}

fn event(rng: &mut Rng) -> KeyEvent {
    KeyEvent {
        keycode: rng.below(LAST_KEYCODE as usize + 1) as u8,
        released: rng.once_in(2),
        flags: rng.below(ALL_FLAGS as usize + 1) as u16,
        side: Side::First,
    }
}

fn handler(rng: &mut Rng) -> Handler {
    let flags = if rng.once_in(2) { 0 } else { rng.below(ALL_FLAGS as usize + 1) as u16 };
    let queue = match rng.below(12) {
        0 => (0..rng.below(QUEUE_PLACES + 1)).map(|_| event(rng)).collect(),
        1 | 2 => vec![event(rng); QUEUE_PLACES - rng.below(4)],
        3 => (0..rng.below(4)).map(|_| event(rng)).collect(),
        _ => Vec::new(),
    };
    let first = Remembered { ext: rng.once_in(4), flags, ..Remembered::default() };
    Handler { first, queue, ..Handler::default() }
}

/// A plan that lists its calls, so that its script can be recorded.
fn plan(rng: &mut Rng) -> Vec<Step> {
    // The longer runs fill and empty the queue, and go round its places.
    let most = if rng.once_in(16) { 200 } else { 6 };
    let calls = 1 + rng.below(most) as u64;
    match rng.below(6) {
        0 => (0..2 * calls).map(|i| if i % 2 == 0 { Step::Handle(Side::First, 1) } else { Step::Take(1) }).collect(),
        1 => (0..=rng.below(4))
            .map(|_| if rng.once_in(2) { Step::Take(calls) } else { Step::Handle(Side::First, calls) })
            .collect(),
        _ => vec![Step::Handle(Side::First, calls)],
    }
}

/// The shorter way to write a recorded plan.
fn shorter(plan: &[Step]) -> Vec<Step> {
    let in_turn = plan.chunks(2).all(|two| two == [Step::Handle(Side::First, 1), Step::Take(1)]);
    match plan {
        [Step::Handle(..)] => vec![Step::Auto],
        _ if in_turn => vec![Step::Each],
        _ => plan.to_vec(),
    }
}

/// A call whose script a device made up. The log has just room for what the call writes.
fn recorded(oracle: &mut Oracle, op: &Op, seed: u64, noise: usize, twist: Twist) -> Call {
    let model = Model::new(seed, noise, twist, matches!(op, Op::Handle(..)), LONGEST_SCRIPT);
    let (script, room) = oracle.record(op, Box::new(model));
    let op = match op {
        // A long script that is then damaged must not become as many calls as it has bytes.
        Op::Handle(handler, plan) if script.len() < 1000 => Op::Handle(handler.clone(), shorter(plan)),
        op => op.clone(),
    };
    Call { op, script, script2: None, room, repeat: 1 }
}

/// What comes over and over in a stall about a limit.
fn stalling(limit: usize) -> &'static [&'static [u8]] {
    match limit {
        255 => &[&[0x02]],
        65535 => &[&[0x1C], &[0x20], &[0x01, 0x55], &[0x21, 0x12], &[0x54]],
        _ => &[&[0x00], &[0x55]],
    }
}

/// A stall about a limit, at one of a good device's reads.
fn stall(rng: &mut Rng, limit: usize, reads: usize) -> Twist {
    Twist::Stall(rng.below(reads), rng.pick(stalling(limit)).to_vec(), limit - 1 + rng.below(3))
}

/// A call of a kind, by chance.
pub fn by_chance(oracle: &mut Oracle, kind: usize, rng: &mut Rng) -> Call {
    let op = operation(kind, rng);
    let seed = rng.next();
    let choice = rng.below(4000);
    let good = if choice < 2000 { recorded(oracle, &op, seed, 0, Twist::None) } else { plain(op.clone(), &[], 0) };
    let reads = good.script.len().max(1);
    let twist = match choice {
        0 => Twist::Longest(rng.below(3) as isize - 1),
        1..=30 => {
            let limit = rng.pick(&LIMITS[1..]);
            stall(rng, limit, reads)
        }
        31..=110 => stall(rng, LIMITS[0], reads),
        111..=1110 => Twist::Byte(rng.below(reads), rng.pick(&TELLING)),
        1111..=1999 => Twist::Answers(rng.below(good.room / 2 + 1), rng.pick(&RESPONSES), rng.pick(&TIMES)),
        _ => Twist::None,
    };
    let noise = if choice < 2000 { 0 } else { rng.pick(&[0, 3, 6, 12, 24]) };
    let mut call = recorded(oracle, &op, seed, noise, twist);
    damage(&mut call, rng);
    call
}

/// Cuts, lengthens or changes the script, and gives the log other room.
fn damage(call: &mut Call, rng: &mut Rng) {
    let length = call.script.len();
    match rng.below(16) {
        0..=2 => call.script.truncate(rng.below(length + 1)),
        3 => call.script.truncate(length.saturating_sub(1)),
        4..=5 => call.script.extend((0..rng.below(6)).map(|_| rng.pick(&TELLING))),
        6..=7 if length > 0 => call.script[rng.below(length)] = rng.pick(&TELLING),
        8 if length > 0 => call.script[rng.below(length)] = rng.next() as u8,
        9 if length > 0 => drop(call.script.remove(rng.below(length))),
        _ => {}
    }
    call.room = match rng.below(12) {
        0 | 1 => rng.below(call.room + 1),
        2 | 3 => (call.room + 2).saturating_sub(rng.below(5)),
        4 => 0,
        5 => 64,
        6..=8 => call.room,
        _ => call.room + rng.below(20),
    };
}

/// That no more calls are wanted.
pub struct Enough;

/// Takes a call of an operation. It is made up only where it is asked for, since a sample of the sweep takes few.
pub type Emit<'a> = &'a mut dyn FnMut(&mut Oracle, &Op, &dyn Fn(&mut Oracle) -> Call) -> Result<(), Enough>;

/// How many calls the sweep has of each operation.
pub fn sweep_lengths(oracle: &mut Oracle) -> BTreeMap<&'static str, u64> {
    let mut lengths = BTreeMap::new();
    let counted = sweep(oracle, &mut |_, op, _| {
        *lengths.entry(op.name()).or_default() += 1;
        Ok(())
    });
    assert!(counted.is_ok());
    lengths
}

/// The names of all operations.
pub fn names() -> BTreeSet<&'static str> {
    (0..KINDS).map(|kind| operation(kind, &mut Rng(0)).name()).collect()
}

/// Calls that leave nothing out: of each operation with each argument, over good devices, every cut of the script, every
/// room of the log, every telling byte in the place of each that is read, and every response to each byte for a device;
/// every scancode, configuration and character; of each operation a stall about every limit at each read, and the
/// longest exchange.
pub fn sweep(oracle: &mut Oracle, emit: Emit) -> Result<(), Enough> {
    for op in operations() {
        sweep_short(oracle, &op, emit)?;
    }
    sweep_scancodes(oracle, emit)?;
    let mut emit_plain = |oracle: &mut Oracle, op: Op, script: &[u8], room: usize| {
        emit(oracle, &op, &|_| plain(op.clone(), script, room))
    };
    for byte in 0..=255 {
        emit_plain(oracle, Op::WriteConfig(byte), &[], 4)?;
        emit_plain(oracle, Op::ReadConfig, &[byte], 2)?;
        for id in [0, 3, 4] {
            let op = Op::Mouse(MouseOp::ReadPacket, Some(id));
            for packet in [[byte, 0, 0, 0], [byte, 5, 0xFB, 0], [0x18, byte, 1, 2], [0x28, 1, byte, 2], [8, 1, 2, byte]]
            {
                emit_plain(oracle, op.clone(), &packet, 0)?;
            }
        }
    }
    for keycode in (0..=LAST_KEYCODE).chain(RELEASE_KEYCODES) {
        for flags in 0..=ALL_FLAGS {
            emit_plain(oracle, Op::ToAscii(keycode, flags), &[], 0)?;
        }
    }
    let mut rng = Rng(0);
    for kind in 0..KINDS {
        let op = operation(kind, &mut rng);
        sweep_limits(oracle, &op, emit)?;
    }
    Ok(())
}

fn plain(op: Op, script: &[u8], room: usize) -> Call {
    Call { op, script: script.to_vec(), script2: None, room, repeat: 1 }
}

/// Every operation with every argument.
fn operations() -> Vec<Op> {
    let mut rng = Rng(0);
    let mut all: Vec<Op> = Vec::new();
    for kind in 0..KINDS {
        for _ in 0..200 {
            let mut op = operation(kind, &mut rng);
            match &mut op {
                Op::Handle(handler, plan) => {
                    (*handler, *plan) = (Handler::default(), vec![Step::Handle(Side::First, 1)])
                }
                Op::WriteConfig(byte) => *byte = 0x47,
                Op::ToAscii(keycode, flags) => (*keycode, *flags) = (0, 0),
                _ => {}
            }
            if !all.contains(&op) {
                all.push(op);
            }
        }
    }
    all
}

/// Every scancode, with prefix and without, under no flag and under all, into an empty queue and about a full one.
fn sweep_scancodes(oracle: &mut Oracle, emit: Emit) -> Result<(), Enough> {
    const LAMPS: [u8; 6] = [0, 1, 0xFA, 0, 1, 0xFA];
    let waits = KeyEvent { keycode: 0x1E, released: false, flags: 0, side: Side::First };
    for byte in 0..=255 {
        for ext in [false, true] {
            for flags in [0, ALL_FLAGS] {
                for count in [0, 127, 128] {
                    let first = Remembered { ext, flags, ..Remembered::default() };
                    let handler = Handler { first, queue: vec![waits; count], ..Handler::default() };
                    let script: Vec<u8> = [byte].into_iter().chain(LAMPS).collect();
                    for plan in [vec![Step::Handle(Side::First, 1), Step::Take(1)], vec![Step::Auto]] {
                        let op = Op::Handle(handler.clone(), plan);
                        emit(oracle, &op, &|_| plain(op.clone(), &script, 4))?;
                    }
                }
            }
        }
    }
    Ok(())
}

fn sweep_short(oracle: &mut Oracle, op: &Op, emit: Emit) -> Result<(), Enough> {
    // The seeds give several good devices: other identities, types and configurations.
    for seed in 0..8 {
        let good = recorded(oracle, op, seed, 0, Twist::None);
        for length in 0..=good.script.len() {
            emit(oracle, op, &|_| Call { script: good.script[..length].to_vec(), ..good.clone() })?;
        }
        for room in 0..=good.room + 2 {
            emit(oracle, op, &|_| Call { room, ..good.clone() })?;
        }
    }
    for seed in 0..2 {
        let good = recorded(oracle, op, seed, 0, Twist::None);
        for read in 0..good.script.len() {
            for byte in TELLING {
                emit(oracle, op, &|oracle| recorded(oracle, op, seed, 0, Twist::Byte(read, byte)))?;
            }
        }
        for from in 0..good.room / 2 {
            for (byte, times) in RESPONSES.into_iter().flat_map(|byte| TIMES.map(|times| (byte, times))) {
                emit(oracle, op, &|oracle| recorded(oracle, op, seed, 0, Twist::Answers(from, byte, times)))?;
            }
        }
    }
    Ok(())
}

fn sweep_limits(oracle: &mut Oracle, op: &Op, emit: Emit) -> Result<(), Enough> {
    let good = recorded(oracle, op, 0, 0, Twist::None);
    for read in 0..good.script.len() {
        for limit in LIMITS {
            for bytes in stalling(limit) {
                for times in limit - 1..=limit + 1 {
                    let twist = || Twist::Stall(read, bytes.to_vec(), times);
                    emit(oracle, op, &|oracle| recorded(oracle, op, 0, 0, twist()))?;
                }
            }
        }
    }
    for more in [-1, 0, 1] {
        emit(oracle, op, &|oracle| recorded(oracle, op, 0, 0, Twist::Longest(more)))?;
    }
    Ok(())
}

/// A sample of every operation: short calls by chance, and of each operation stalls at which a limit counts, each with
/// its two neighbours.
pub fn sample(oracle: &mut Oracle, calls: u64, seed: u64, emit: &mut dyn FnMut(&mut Oracle, Call)) {
    const SHORT: usize = 150;
    let mut rng = Rng(seed);
    let mut given = 0;
    while given < calls {
        let call = by_chance(oracle, given as usize % KINDS, &mut rng);
        if call.line().len() < 2 * SHORT && call.script.len() < SHORT {
            given += 1;
            emit(oracle, call);
        }
    }
    for kind in 0..KINDS {
        let op = operation(kind, &mut rng);
        for mut alike in limits_that_count(oracle, &op, seed).into_values() {
            let three = alike.swap_remove(rng.below(alike.len()));
            three.into_iter().for_each(|call| emit(oracle, call));
        }
    }
}

/// The stalls of an operation after which one round more or less makes another answer, each with its neighbours, by how
/// the three end.
fn limits_that_count(oracle: &mut Oracle, op: &Op, seed: u64) -> BTreeMap<[String; 3], Vec<[Call; 3]>> {
    // An answer without its counts and its log.
    let end = |answer: Answer| {
        let line = answer.to_string();
        let lamps = if line.contains("+14") { "+14" } else { "" };
        line.split(' ').next().unwrap().to_string() + line.rsplit(' ').next().unwrap() + lamps
    };
    let reads = recorded(oracle, op, seed, 0, Twist::None).script.len();
    let mut places = BTreeMap::<_, Vec<_>>::new();
    for read in 0..reads {
        for (limit, bytes) in LIMITS.iter().flat_map(|&limit| stalling(limit).iter().map(move |bytes| (limit, bytes))) {
            let three = [limit - 1, limit, limit + 1]
                .map(|times| recorded(oracle, op, seed, 0, Twist::Stall(read, bytes.to_vec(), times)));
            let ends = three.each_ref().map(|call| end(oracle.answer(call)));
            if ends[0] != ends[1] || ends[1] != ends[2] {
                places.entry(ends).or_default().push(three);
            }
        }
    }
    places
}
