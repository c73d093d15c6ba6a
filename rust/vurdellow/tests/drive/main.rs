//! Every operation a byte at a time through `drive`, over devices made up by chance, held to a driver that talks to the ports itself
//! (`direct`) and to the operation's own uncut run.
//!
//! Such a device is a number generator with a seed: what it answers hangs on all that was read and written before, port by port. So a read
//! of another port, or a write that is left out, made twice, too early or too late, makes all that follows another. `direct` reads and writes
//! without the library; what a session reads and writes must be the same, one by one. The operation is then run once on all the bytes: it
//! must use them all, write what was written, and come to the same.

mod direct;

use direct::{Direct, Refused, Remembered, Way, IDENTITIES};
use std::fmt::Debug;
use std::time::{Duration, Instant};
use vurdellow::drive::{drive, drive_within, Patient, Ports, Recorded};
use vurdellow::keyboard::{self, Command, KeyboardCommand, Lamps, ScancodeSet};
use vurdellow::{
    Controller, Counts, Done, Exchange, Fields, Handler, Handling, Identity, IdentitySet, Keyboards, Mouse,
    MouseCommand, Outcome, Port, Preferences, Profile, Refusal, Refused as RefusedWith, Request, Resolution,
    SamplingRate, Session, Side, Steps,
};

#[derive(Clone, Copy, Debug, PartialEq)]
enum Access {
    Read(Port, u8),
    Wrote(Port, u8),
}

/// Numbers by chance, the same for the same seed (splitmix64).
#[derive(Clone)]
struct Chance(u64);

impl Chance {
    fn next(&mut self) -> u64 {
        self.0 = self.0.wrapping_add(0x9E3779B97F4A7C15);
        let z = (self.0 ^ (self.0 >> 30)).wrapping_mul(0xBF58476D1CE4E5B9);
        let z = (z ^ (z >> 27)).wrapping_mul(0x94D049BB133111EB);
        z ^ (z >> 31)
    }

    fn below(&mut self, n: usize) -> usize {
        (self.next() % n as u64) as usize
    }

    fn pick<T: Copy>(&mut self, choices: &[T]) -> T {
        choices[self.below(choices.len())]
    }
}

/// A device by chance, and all that was read from it and written to it.
#[derive(Clone)]
struct Device {
    chance: Chance,
    /// In how many of sixteen times it does what is hoped for.
    kindness: usize,
    /// What was written last.
    last: u8,
    seen: Vec<Access>,
}

impl Device {
    fn new(seed: u64) -> Device {
        let mut chance = Chance(seed);
        let kindness = chance.pick(&[0, 8, 13, 15, 16]);
        Device { chance, kindness, last: 0, seen: Vec::new() }
    }

    /// What follows hangs on what was done.
    fn note(&mut self, access: Access) {
        let (port, byte, write) = match access {
            Access::Read(port, byte) => (port, byte, 0),
            Access::Wrote(port, byte) => (port, byte, 1),
        };
        self.chance.0 ^= u64::from(port.number()) << 16 | u64::from(byte) << 8 | write;
        self.chance.next();
        self.seen.push(access);
    }
}

impl Ports for Device {
    fn read(&mut self, port: Port) -> u8 {
        let is_kind = self.chance.below(16) < self.kindness;
        let choices: &[u8] = match (port, is_kind, self.last) {
            (Port::Status, true, _) => &[0x21, 0x21, 0x3D, 0x01, 0x1C],
            (Port::Status, false, _) => &[0x00, 0x01, 0x02, 0x03, 0x20, 0x21, 0x1C, 0x1D, 0x3D, 0xFF],
            (Port::Data, true, 0xAA) => &[0x55],
            (Port::Data, true, 0xAB | 0xA9) => &[0x00],
            (Port::Data, true, 0xFF) => &[0xFA, 0xAA],
            (Port::Data, true, 0xF2) => &[0xFA, 0xFA, 0x00, 0x03, 0x03, 0x04, 0xAB, 0x83, 0x41],
            (Port::Data, true, 0x00..=0x03) => &[0xFA, 0xFA, 0x00, 0x01, 0x02, 0x03],
            (Port::Data, true, 0x20) => &[0x20, 0x30, 0x33, 0x00, 0x47],
            (Port::Data, true, _) => &[0xFA],
            (Port::Data, false, _) => &[
                0x00, 0x01, 0x03, 0x04, 0x1E, 0x2A, 0x3A, 0x45, 0x46, 0x55, 0x83, 0x9E, 0xAA, 0xAB, 0xC1, 0xE0, 0xEE,
                0xFA, 0xFC, 0xFD, 0xFE, 0xFF,
            ],
        };
        let byte = self.chance.pick(choices);
        self.note(Access::Read(port, byte));
        byte
    }

    fn write(&mut self, port: Port, value: u8) {
        self.last = value;
        self.note(Access::Wrote(port, value));
    }
}

/// Drives a session over a device, and compares with what `direct` made of the same device, and with the uncut run, the `operation`.
fn driven<S: Steps>(
    what: &str,
    device: &Device,
    direct: &Device,
    session: S,
    operation: impl FnOnce(&[u8], &mut [u8]) -> S::Outcome,
) -> S::Outcome
where
    S::Outcome: Outcome + PartialEq + Debug,
{
    let mut ports = Recorded::new(device.clone());
    let outcome = drive(&mut ports, session);
    let Recorded { ports, script, log } = ports;
    assert_eq!(ports.seen, direct.seen, "{what}: the reads and writes");

    let mut room = vec![0xCC; log.len() + 6];
    let uncut = operation(&script, &mut room);
    assert_eq!(uncut, outcome, "{what}: what the uncut run comes to");
    assert_eq!((uncut.used(), 2 * uncut.pairs()), (script.len(), log.len()), "{what}: its counts");
    assert_eq!((&room[..log.len()], &room[log.len()..]), (&log[..], &[0xCC; 6][..]), "{what}: its log");
    outcome
}

/// What an operation comes to, without the counts.
fn without_counts<T>(outcome: Exchange<T>) -> Result<T, Refused> {
    outcome.map(|done| done.value).map_err(|refused| refused.number())
}

fn kept(what: &str, command: Command, direct: Result<(), Refused>, thrown: &[u8]) {
    let (first, others) = thrown.split_at(thrown.len().min(16));
    let (number, done) = match command {
        Ok(done) => (Ok(()), done),
        Err(refused) => (Err(refused.number()), refused.done),
    };
    assert_eq!((number, done.kept.bytes(), done.kept.others as usize), (direct, first, others.len()), "{what}");
}

/// The operations that give nothing, by number: what `direct` makes, the session, and the call.
const PLAIN: usize = 11;

fn plain(kind: usize, direct: &mut Direct, arguments: Arguments) -> (Result<(), Refused>, Plain, Call) {
    let Arguments { set, rate, resolution, byte, .. } = arguments;
    match kind {
        0 => (direct.reset(Way::First), Box::new(Session::keyboard_reset()), Box::new(keyboard::reset)),
        1 => (
            direct.set_scancode_set(set as u8),
            Box::new(Session::keyboard_set_scancode_set(set)),
            Box::new(move |s, l| keyboard::set_scancode_set(set, s, l)),
        ),
        2 => (
            direct.pair(Way::First, 0xF3, byte),
            Box::new(Session::keyboard_set_repeat(byte)),
            Box::new(move |s, l| keyboard::set_repeat(byte, s, l)),
        ),
        3 => (direct.reset(Way::Second), Box::new(Session::mouse_reset()), Box::new(Mouse::reset)),
        4 => (direct.start_packets(), Box::new(Session::mouse_start_packets()), Box::new(Mouse::start_packets)),
        5 => (direct.stop_packets(), Box::new(Session::mouse_stop_packets()), Box::new(Mouse::stop_packets)),
        6 => (
            direct.sampling_rate(rate as u8),
            Box::new(Session::mouse_set_sampling_rate(rate)),
            Box::new(move |s, l| Mouse::set_sampling_rate(rate, s, l)),
        ),
        7 => (
            direct.resolution(resolution as u8),
            Box::new(Session::mouse_set_resolution(resolution)),
            Box::new(move |s, l| Mouse::set_resolution(resolution, s, l)),
        ),
        _ => {
            let fields = [set as u8, rate as u8, resolution as u8, byte & 7];
            let [set, rate, resolution, lamps] = fields.map(u32::from);
            let repeat = (kind == 9).then_some(byte & 0x7F);
            // 28 is answered before anything is read or written.
            let outside = [(4, 10, 0, 0), (1, 300, 0, 0), (1, 10, 256, 0), (1, 10, 0, u32::MAX)];
            let (wrong_set, wrong_rate, wrong_resolution, wrong_lamps) = outside[usize::from(byte & 3)];
            let (expected, fields) = match kind {
                8 | 9 => (direct.apply(fields, repeat), Fields { set, rate, resolution, lamps }),
                _ => (
                    Err(28),
                    Fields { set: wrong_set, rate: wrong_rate, resolution: wrong_resolution, lamps: wrong_lamps },
                ),
            };
            let preferences = repeat.map_or(Preferences::Version1(fields), |r| Preferences::Version2(fields, r.into()));
            (expected, Box::new(Session::preferences_apply(preferences)), Box::new(move |s, l| preferences.apply(s, l)))
        }
    }
}

type Plain = Box<dyn Steps<Outcome = Exchange<()>>>;
type Call = Box<dyn FnOnce(&[u8], &mut [u8]) -> Exchange<()>>;

#[derive(Clone, Copy)]
struct Arguments {
    set: ScancodeSet,
    rate: SamplingRate,
    resolution: Resolution,
    identity: Identity,
    byte: u8,
}

impl Arguments {
    fn by_chance(chance: &mut Chance) -> Arguments {
        use Resolution::*;
        use SamplingRate::*;
        Arguments {
            set: chance.pick(&[ScancodeSet::Set1, ScancodeSet::Set2, ScancodeSet::Set3]),
            rate: chance.pick(&[Hz10, Hz20, Hz40, Hz60, Hz80, Hz100, Hz200]),
            resolution: chance.pick(&[Counts1, Counts2, Counts4, Counts8]),
            identity: chance.pick(&IDENTITIES),
            byte: chance.next() as u8,
        }
    }
}

const MOUSE_COMMANDS: [(MouseCommand, u8); 4] = [
    (MouseCommand::SetScaling, 0xE6),
    (MouseCommand::StatusRequest, 0xE9),
    (MouseCommand::SetDefaults, 0xF6),
    (MouseCommand::Reset, 0xFF),
];

/// All operations but the handler call, which needs a record that others made.
const KINDS: usize = PLAIN + 12;

/// An operation over a device by chance. Gives how often the device was read or written.
fn one(kind: usize, seed: u64) -> usize {
    use KeyboardCommand::*;
    let what = &format!("operation {kind}, seed {seed}");
    let mut chance = Chance(!seed);
    let arguments = Arguments::by_chance(&mut chance);
    let Arguments { identity, byte, .. } = arguments;
    let device = Device::new(seed);
    let mut other = device.clone();
    let mut direct = Direct { ports: &mut other, thrown: Vec::new() };
    if kind < PLAIN {
        let (expected, mut steps, call) = plain(kind, &mut direct, arguments);
        assert_eq!(without_counts(driven(what, &device, &other, &mut *steps, call)), expected, "{what}");
        return other.seen.len();
    }
    match kind - PLAIN {
        0 => {
            let passed = Controller { initialized: byte & 12 == 0, keyboard: byte & 1 == 0, mouse: byte & 2 == 0 };
            let expected = if passed.initialized { Err(1) } else { direct.init() };
            let outcome = driven(what, &device, &other, Session::controller_init(passed), |script, log| {
                let mut left = passed;
                let run = left.initialize(script, log);
                run.map(|Done { used, pairs, .. }| Done { value: left, used, pairs })
            });
            let ready = |(keyboard, mouse)| Controller { initialized: true, keyboard, mouse };
            assert_eq!(without_counts(outcome), expected.map(ready), "{what}");
        }
        1 => {
            let expected = direct.keyboard_init();
            let mut handler = Handler::new(Keyboards::One, Profile::Any);
            let outcome = driven(what, &device, &other, Session::keyboard_init(), |script, log| {
                handler.initialize(Keyboards::Two, Profile::Tournament, script, log)
            });
            assert_eq!(without_counts(outcome), expected, "{what}");
            assert_eq!(handler, Handler::new(Keyboards::Two, Profile::Tournament), "{what}");
        }
        2 => {
            let commands = [
                (SetLedStatus, 0xED),
                (ScancodeSet, 0xF0),
                (IdentifyKeyboard, 0xF2),
                (SetRepeatRateAndDelay, 0xF3),
                (EnableScanning, 0xF4),
                (DisableScanning, 0xF5),
                (ResendByte, 0xFE),
                (ResetAndStartSelfTest, 0xFF),
            ];
            let (command, byte) = chance.pick(&commands);
            let expected = direct.command(Way::First, byte);
            let thrown = std::mem::take(&mut direct.thrown);
            let outcome = driven(what, &device, &other, Session::keyboard_command(command), |script, log| {
                keyboard::command(command, script, log)
            });
            kept(what, outcome, expected, &thrown);
        }
        3 => {
            let lamps = [Lamps::SCROLL, Lamps::NUM, Lamps::CAPS].into_iter().enumerate();
            let lamps = lamps.fold(Lamps::NONE, |all, (bit, lamp)| if byte >> bit & 1 == 1 { all | lamp } else { all });
            let expected = direct.lamps(Way::First, byte & 7);
            let thrown = std::mem::take(&mut direct.thrown);
            let outcome = driven(what, &device, &other, Session::keyboard_set_lamps(lamps), |script, log| {
                keyboard::set_lamps(lamps, script, log)
            });
            kept(what, outcome, expected, &thrown);
        }
        4 => {
            let expected = direct.scancode_set();
            let outcome = driven(what, &device, &other, Session::keyboard_get_scancode_set(), keyboard::get_scancode_set);
            assert_eq!(without_counts(outcome), expected, "{what}");
        }
        5 => {
            let expected = direct.detect();
            let outcome = driven(what, &device, &other, Session::keyboard_detect(), keyboard::detect);
            assert_eq!(without_counts(outcome), expected, "{what}");
        }
        6 => {
            let expected = direct.ports.read(Port::Status) & 1 != 0;
            let outcome = driven(what, &device, &other, Session::keyboard_waits(), |script, _| keyboard::waits(script));
            assert_eq!(without_counts(outcome), Ok(expected), "{what}");
        }
        7 => {
            let expected = direct.data();
            let outcome = driven(what, &device, &other, Session::keyboard_read_scancode(), |script, _| {
                keyboard::read_scancode(script)
            });
            assert_eq!(without_counts(outcome), Ok(expected), "{what}");
        }
        8 => {
            let expected = direct.identity();
            let outcome = driven(what, &device, &other, Session::mouse_get_identity(), Mouse::get_identity);
            assert_eq!(without_counts(outcome), expected, "{what}");
        }
        9 => {
            let (expected, left) = direct.set_identity(identity);
            let outcome: IdentitySet =
                driven(what, &device, &other, Session::mouse_set_identity(identity), |script, log| {
                    let mut mouse = Mouse { identity };
                    let run = mouse.set_identity(script, log);
                    let left = |Counts { used, pairs }| Done { value: mouse.identity, used, pairs };
                    run.map_err(|RefusedWith { refusal, done }| RefusedWith { refusal, done: left(done) })
                });
            let (number, done) = match outcome {
                Ok(done) => (Ok(()), done),
                Err(refused) => (Err(refused.number()), refused.done),
            };
            assert_eq!((number, done.value), (expected, left), "{what}");
        }
        10 => {
            let expected = direct.ports.read(Port::Status) & 0x21 == 0x21;
            let outcome = driven(what, &device, &other, Session::mouse_waits(), |script, _| Mouse::waits(script));
            assert_eq!(without_counts(outcome), Ok(expected), "{what}");
        }
        _ if byte & 1 == 0 => {
            let bytes = direct.packet(identity);
            let mouse = Mouse { identity };
            let session = Session::mouse_read_packet(identity);
            let outcome = driven(what, &device, &other, session, |script, _| mouse.read_packet(script));
            assert_eq!(outcome, mouse.read_packet(&bytes), "{what}");
        }
        _ => {
            let (command, byte) = chance.pick(&MOUSE_COMMANDS);
            let expected = direct.command(Way::Second, byte);
            let thrown = std::mem::take(&mut direct.thrown);
            let outcome = driven(what, &device, &other, Session::mouse_command(command), |script, log| {
                Mouse::command(command, script, log)
            });
            kept(what, outcome, expected, &thrown);
        }
    }
    other.seen.len()
}

/// How many devices: as many as the variable DEVICES says, otherwise few enough for the gate.
fn seeds() -> std::ops::Range<u64> {
    0..std::env::var("DEVICES").map_or(400, |number| number.parse().expect("a number"))
}

#[test]
fn every_operation_over_devices_by_chance() {
    let mut accesses = [0; KINDS];
    for seed in seeds() {
        for (kind, accesses) in accesses.iter_mut().enumerate() {
            *accesses += one(kind, seed);
        }
    }
    assert!(accesses.iter().enumerate().all(|(kind, &accesses)| (accesses > 0) == (kind != PLAIN - 1)));
}

#[test]
fn handler_calls_over_devices_by_chance() {
    for seed in seeds() {
        let mut handler = Handler::new(Keyboards::Two, Profile::Any);
        let mut remembered = [Remembered::default(), Remembered::default()];
        let mut device = Device::new(seed);
        for call in 0..40 {
            let (at, side, way) =
                device.chance.clone().pick(&[(0, Side::First, Way::First), (1, Side::Second, Way::Second)]);
            let what = &format!("handler call {call}, seed {seed}");
            let mut other = device.clone();
            let expected = remembered[at].handle(way, &mut other);
            let mut left = handler.clone();
            let call = Handling::begin(handler.clone(), side);
            let outcome = driven(what, &device, &other, call, |script, log| left.handle(side, script, log));
            let done = outcome.unwrap_or_else(|refused| refused.done);
            assert_eq!((done.lamps_failed, done.dropped), expected, "{what}");
            // The record is as it was until the call has ended, and then the one that the uncut run leaves.
            let mut call = Handling::begin(handler.clone(), side);
            let half = device.chance.clone().below(done.used + 1);
            if drive_within(&mut device.clone(), half, &mut call).is_none() {
                assert_eq!(call.into_handler(), handler, "{what}: a call that has not ended");
            }
            assert_eq!(drive(&mut device, handler.handling(side)), outcome, "{what}");
            assert_eq!(handler, left, "{what}: the record");
            handler.events().for_each(drop);
            device.seen.clear();
        }
    }
}

/// Drivers that do it wrong, each in one way.
#[derive(Clone, Copy, Debug)]
enum Wrong {
    /// A write is made behind the read that follows it.
    Late,
    /// A write is made twice.
    Twice,
    /// A write is left out.
    Never,
    /// The status is read whatever port is wanted.
    Port,
    /// A byte is read and thrown away before a write.
    Early,
}

fn drive_wrongly(wrong: Wrong, ports: &mut Device, mut session: impl Steps) {
    let mut late = None;
    for _ in 0..1_000 {
        match session.wanted() {
            Request::Read(port) => {
                let port = if matches!(wrong, Wrong::Port) { Port::Status } else { port };
                let byte = ports.read(port);
                if let Some((port, value)) = late.take() {
                    ports.write(port, value);
                }
                session.next(byte);
            }
            Request::Write(port, value) => {
                match wrong {
                    Wrong::Late => late = Some((port, value)),
                    Wrong::Never => {}
                    Wrong::Twice => (0..2).for_each(|_| ports.write(port, value)),
                    Wrong::Early => {
                        ports.read(Port::Data);
                        ports.write(port, value);
                    }
                    Wrong::Port => ports.write(port, value),
                }
                session.next(0);
            }
            Request::Done(_) => return,
        }
    }
}

#[test]
fn wrong_drivers_are_found() {
    for wrong in [Wrong::Late, Wrong::Twice, Wrong::Never, Wrong::Port, Wrong::Early] {
        let found = |seed: &u64| {
            let (mut device, mut other) = (Device::new(*seed), Device::new(*seed));
            let _ = Direct { ports: &mut other, thrown: Vec::new() }.lamps(Way::First, 4);
            drive_wrongly(wrong, &mut device, Session::keyboard_set_lamps(Lamps::CAPS));
            device.seen != other.seen
        };
        assert!((0..100).filter(found).count() > 90, "{wrong:?}");
    }
}

#[test]
fn so_many_reads_at_a_time() {
    for seed in 0..200 {
        let mut whole = Recorded::new(Device::new(seed));
        let outcome = drive(&mut whole, Session::keyboard_detect());
        let reads = whole.script.len();
        for at_a_time in [1, 2, 7, reads / 2 + 1, reads] {
            let (mut device, mut session) = (Device::new(seed), Session::keyboard_detect());
            let (mut times, mut ended) = (0, None);
            while ended.is_none() && times <= reads {
                // What is wanted is wanted again after a suspension, and by a copy.
                assert_eq!(session.wanted(), session.clone().wanted());
                ended = drive_within(&mut device, at_a_time, &mut session);
                times += 1;
            }
            assert_eq!((ended, &device.seen), (Some(outcome), &whole.ports.seen));
            assert_eq!(times, reads.div_ceil(at_a_time).max(1));
            // After the end nothing is done.
            session.next(0xFA);
            assert_eq!(session.wanted(), Request::Done(outcome));
        }
    }
}

/// A controller that takes its time: a byte that was written is taken after some, and answered by FA after more.
struct Slow {
    taken_after: Duration,
    answered_after: Duration,
    written: Option<Instant>,
}

impl Slow {
    fn new(taken_after: u64, answered_after: u64) -> Slow {
        let [taken_after, answered_after] = [taken_after, answered_after].map(Duration::from_millis);
        Slow { taken_after, answered_after, written: None }
    }
}

impl Ports for Slow {
    fn read(&mut self, port: Port) -> u8 {
        let Some(age) = self.written.map(|at| at.elapsed()) else {
            return if port == Port::Data { 0x77 } else { 0 };
        };
        if port == Port::Data {
            if age < self.answered_after {
                return 0x77;
            }
            self.written = None;
            return 0xFA;
        }
        u8::from(age >= self.answered_after) | if age < self.taken_after { 2 } else { 0 }
    }

    fn write(&mut self, _port: Port, _value: u8) {
        self.written = Some(Instant::now());
    }
}

#[test]
fn patience_waits_by_time() {
    let begin = Instant::now();
    let mut ports = Recorded::new(Patient::new(Slow::new(20, 60), Duration::from_secs(60)));
    assert!(drive(&mut ports, Session::keyboard_set_lamps(Lamps::CAPS)).is_ok());
    assert!(begin.elapsed() >= Duration::from_millis(120));
    assert_eq!(ports.log, [0x60, 0xED, 0x60, 0x04]);
    // Every poll is in the script, and waits are a sixteenth of the silence, so they are few: so many that 255 last longer.
    assert!(ports.script.len() < 2 * 255, "{} reads", ports.script.len());
    let shown = |byte: &u8| ports.script.iter().filter(|at| *at == byte).count();
    assert_eq!((shown(&0xFA), shown(&0x01), shown(&0x77)), (2, 2, 0));

    // A data byte that is read without asking is waited for: a self test's, after its acknowledgement.
    let slow = Slow { written: Some(Instant::now()), ..Slow::new(0, 30) };
    let mut ports = Patient::new(slow, Duration::from_secs(60));
    assert_eq!(drive(&mut ports, Session::keyboard_read_scancode()).map(|done| done.value), Ok(0xFA));
}

#[test]
fn a_silent_device_is_given_up() {
    let limit = Duration::from_millis(50);
    let mut ports = Recorded::new(Patient::new(Slow::new(0, 1_000_000_000), limit));
    let begin = Instant::now();
    let outcome = drive(&mut ports, Session::keyboard_set_lamps(Lamps::CAPS));
    assert!(begin.elapsed() >= limit);
    // One look before ED is sent, and 65,535 polls that find nothing.
    assert_eq!(outcome.map_err(|refused| refused.refusal).err(), Some(Refusal::LedsNotSet));
    assert_eq!(ports.script, [0; 65_536]);
    println!("a silent keyboard was given up after {:?}", begin.elapsed());

    // Data that is not there is the port's old byte.
    assert_eq!(ports.read(Port::Data), 0x77);
}

/// Keyboards with which a command takes longest.
struct Bad {
    manner: Manner,
    sends: u32,
    polls: u32,
    sent: bool,
}

#[derive(Clone, Copy, Debug, PartialEq)]
enum Manner {
    /// It acknowledges at once.
    Willing,
    /// No byte ever comes.
    Silent,
    /// A byte that is no response can be read at every poll.
    StuckFull,
    /// It takes each byte at the last look, and asks for it again by FE at the last poll.
    Longest,
}

impl Ports for Bad {
    fn read(&mut self, port: Port) -> u8 {
        match (self.manner, port) {
            (Manner::Silent, _) => 0,
            (Manner::Willing, Port::Status) => self.sent.into(),
            (Manner::Willing, Port::Data) => {
                self.sent = false;
                0xFA
            }
            (Manner::StuckFull, Port::Status) => 1,
            (Manner::StuckFull, Port::Data) => 0x55,
            (Manner::Longest, Port::Status) if self.sent => {
                self.polls += 1;
                1
            }
            (Manner::Longest, Port::Status) => {
                self.sends += 1;
                if self.sends < 255 {
                    2
                } else {
                    0
                }
            }
            (Manner::Longest, Port::Data) if self.polls < 65_535 => 0x55,
            (Manner::Longest, Port::Data) => {
                self.sent = false;
                0xFE
            }
        }
    }

    fn write(&mut self, _port: Port, _value: u8) {
        (self.sends, self.polls, self.sent) = (0, 0, true);
    }
}

/// Shown with `cargo test --release longest -- --nocapture`.
#[test]
fn the_longest_exchanges() {
    for (manner, reads, writes, refusal) in [
        (Manner::Willing, 3, 1, None),
        (Manner::Silent, 65_536, 1, Some(5)),
        (Manner::StuckFull, 131_071, 1, Some(5)),
        (Manner::Longest, 525_300, 4, Some(7)),
    ] {
        let mut ports = Bad { manner, sends: 0, polls: 0, sent: false };
        let begin = Instant::now();
        let outcome = drive(&mut ports, Session::keyboard_command(KeyboardCommand::EnableScanning));
        let took = begin.elapsed();
        println!("{manner:?}: {reads} reads, {writes} writes, {took:?}, {} ns a read", took.as_nanos() / reads as u128);
        let number = outcome.refusal().map(Refusal::number);
        assert_eq!((outcome.used(), outcome.pairs(), number), (reads, writes, refusal), "{manner:?}");
    }
}
