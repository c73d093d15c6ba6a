//! The same calls to the Rust and to the others, and their answers held side by side.

use crate::answer::{Answer, Done};
use crate::call;
use crate::call::{Call, Op};
use crate::device::Rng;
use crate::generate::{by_chance, kind_by_chance, names, sweep, sweep_lengths, Enough, KINDS};
use crate::kept;
use crate::mirror::{First, Mirror};
use crate::oracle::Oracle;
use crate::port::Port;
use crate::sides::Answerer;
use std::collections::BTreeMap;
use std::io;
use std::process::ExitCode;
use std::sync::atomic::{AtomicU64, Ordering};
use std::sync::mpsc::{sync_channel, SyncSender};
use std::thread;
use std::time::{Duration, Instant};

/// A call's line, the call, and the Rust's answer.
struct Asked {
    line: String,
    call: Call,
    rust: Answer,
}

/// From so many calls on, each operation must have been called.
pub const FEW: u64 = 1000;

/// How many calls have been found alike.
static ALIKE: AtomicU64 = AtomicU64::new(0);

/// Calls on their way, with the Rust's answers, to the thread in which the others answer.
struct Sender {
    to_others: SyncSender<Vec<Asked>>,
    batch: Vec<Asked>,
    calls: u64,
    /// How many calls of each operation were sent, from the sweep and by chance.
    sent: BTreeMap<&'static str, [u64; 2]>,
    answers: BTreeMap<String, u64>,
}

/// Where a call comes from.
#[derive(Clone, Copy)]
enum Source {
    Sweep,
    Chance,
}

impl Sender {
    fn send(&mut self, oracle: &mut Oracle, call: Call, from: Source) -> Result<(), Enough> {
        const BATCH: usize = 256;
        // Both sides are called by what the line says.
        let mut line = kept::shown(call).line();
        let mut call = call::parse(&line).expect("a good line");
        let mut answer = oracle.answer(&call);
        // What is compared are calls that begin with none waiting.
        if let Some(shorter) = oracle.before_waiting(&call, &answer) {
            line = shorter.line();
            call = call::parse(&line).expect("a good line");
            answer = oracle.answer(&call);
        }
        // The Rust has one keyboard, and side 1's calls of a few events are the same at a table with two: every other run is one there.
        if self.calls % 2 == 1 && has_few_events(&call, &answer) {
            if let Op::Handle(handler, _) = &mut call.op {
                handler.two = true;
            }
            line = call.line();
        }
        self.calls += 1;
        self.sent.entry(call.op.name()).or_default()[from as usize] += 1;
        count_answers(&mut self.answers, &answer);
        self.batch.push(Asked { line, call, rust: answer });
        if self.batch.len() == BATCH {
            self.flush()
        } else {
            Ok(())
        }
    }

    fn flush(&mut self) -> Result<(), Enough> {
        // A channel is closed only where the comparison has ended.
        self.to_others.send(std::mem::take(&mut self.batch)).map_err(|_| Enough)
    }
}

/// Whether so few events wait in a run that none can meet side 1's share.
fn has_few_events(call: &Call, answer: &Answer) -> bool {
    match (&call.op, answer) {
        (Op::Handle(handler, _), Answer::Run { done, .. }) => handler.queue.len() + done.len() <= call::SHARE,
        _ => false,
    }
}

/// Counts an answer by its number, and a run's by those of its calls.
pub fn count_answers(answers: &mut BTreeMap<String, u64>, answer: &Answer) {
    let mut count = |number: u8| {
        let name = if number == 0 { "ok".to_string() } else { number.to_string() };
        *answers.entry(name).or_default() += 1;
    };
    match answer {
        Answer::Call { end, .. } | Answer::Bytes { end, .. } => count(*end),
        Answer::Salvaged(salvaged) => count(salvaged.end),
        Answer::Dispatched(dispatched) => dispatched.ends().for_each(count),
        Answer::Fields(read) => count(read.end),
        Answer::Reported(reported) => reported.ends().iter().for_each(|&end| count(end)),
        Answer::Kept(kept) => count_answers(answers, &kept.answer),
        Answer::Run { done, .. } => {
            for d in done {
                if let Done::Handled { end, lamps_failed, .. } = d {
                    count(*end);
                    if *lamps_failed {
                        count(14);
                    }
                }
            }
        }
    }
}

/// How many calls of each operation to take from a sweep of these lengths: all, where that many are wanted. Otherwise half of
/// the calls come from the sweep: one part of these in equal shares, so that none is left out, the other by length.
pub fn shares(lengths: &BTreeMap<&'static str, u64>, wanted: u64) -> BTreeMap<&'static str, u64> {
    let all: u64 = lengths.values().sum();
    if wanted >= all {
        return lengths.clone();
    }
    let equal = wanted / 4 / lengths.len() as u64;
    let first = |length: u64| equal.min(length);
    let firsts: u64 = lengths.values().map(|&length| first(length)).sum();
    let by_length = |length: u64| (length - first(length)) * (wanted / 2 - firsts) / (all - firsts);
    lengths.iter().map(|(&name, &length)| (name, first(length) + by_length(length))).collect()
}

pub fn listed<K: std::fmt::Display>(counts: &BTreeMap<K, u64>) -> String {
    counts.iter().map(|(key, count)| format!("{key} {count}")).collect::<Vec<_>>().join(", ")
}

/// Ends the program, with the exit status 1.
fn differ(number: u64, asked: &Asked, other: &str, theirs: &str) -> ! {
    let Asked { line, rust, .. } = asked;
    println!("# the first difference: call {number}");
    println!("{line}\n# the Rust\n{rust}\n# {other}\n{theirs}");
    std::process::exit(1)
}

/// An answer of which something is changed, so that a comparison can be seen to find it.
pub fn changed(mut answer: Answer) -> Answer {
    match &mut answer {
        Answer::Call { end, .. } | Answer::Bytes { end, .. } => *end ^= 1,
        Answer::Run { done, .. } => done.push(Done::NotTaken(0)),
        Answer::Salvaged(salvaged) => salvaged.end ^= 1,
        Answer::Dispatched(dispatched) => dispatched.last ^= 1,
        Answer::Fields(read) => read.end ^= 1,
        Answer::Reported(reported) => reported.report.packets ^= 1,
        Answer::Kept(kept) => kept.others ^= 1,
    }
    answer
}

/// Has each of the others answer the calls, and compares their answers with the Rust's.
fn hold(others: &mut [Box<dyn Answerer>], batches: impl Iterator<Item = Vec<Asked>>, damaged: Damage) {
    for asked in batches.flatten() {
        let number = ALIKE.load(Ordering::Relaxed) + 1;
        for other in &mut *others {
            let answer = other.ask(&asked.call).map(Answer::without_additions);
            let is_damaged = damaged.call == Some(number) && damaged.side == other.name();
            match answer.map(|answer| if is_damaged { changed(answer) } else { answer }) {
                Ok(answer) if other.is_alike(&answer, &asked.rust) => {}
                Ok(answer) => differ(number, &asked, other.name(), &answer.to_string()),
                Err(why) => differ(number, &asked, other.name(), &format!("({why})")),
            }
        }
        ALIKE.store(number, Ordering::Relaxed);
    }
}

/// Whose answer to which call is changed on its way, so that a comparison can be seen to find it.
#[derive(Clone, Copy)]
pub struct Damage {
    pub call: Option<u64>,
    pub side: &'static str,
}

/// Compares so many calls.
pub fn compare(calls: u64, seed: u64, damaged: Damage) -> io::Result<ExitCode> {
    let start = Instant::now();
    let (to_others, batches) = sync_channel::<Vec<Asked>>(16);
    // One more side that answers the Rust's calls stands here.
    let holding = thread::spawn(move || {
        let mirror = First(Mirror::new(seed));
        hold(&mut [Box::new(Port::new(seed)), Box::new(mirror)], batches.iter(), damaged)
    });
    let progress = thread::spawn(move || loop {
        thread::park_timeout(Duration::from_secs(5));
        let alike = ALIKE.load(Ordering::Relaxed);
        let rate = alike as f64 / start.elapsed().as_secs_f64();
        eprintln!("compare: {alike} of {calls} calls, {rate:.0} a second, no difference");
        if alike == calls {
            return;
        }
    });

    let mut sender = Sender {
        to_others,
        batch: Vec::new(),
        calls: 0,
        sent: names().into_iter().map(|name| (name, [0, 0])).collect(),
        answers: BTreeMap::new(),
    };
    let mut oracle = Oracle::new();
    let mut rng = Rng(seed);
    let lengths = sweep_lengths(&mut oracle);
    // Of each operation how many calls of the sweep are still to come, and how many of these are to be taken: each has the
    // same chance.
    let mut ahead = lengths.clone();
    let mut wanted = shares(&lengths, calls);
    let mut going = sweep(&mut oracle, &mut |oracle, op, make| {
        let (ahead, wanted) = (ahead.get_mut(op.name()).unwrap(), wanted.get_mut(op.name()).unwrap());
        let is_taken = (rng.below(*ahead as usize) as u64) < *wanted;
        *ahead -= 1;
        *wanted -= is_taken as u64;
        match is_taken {
            true => {
                let call = make(oracle);
                sender.send(oracle, call, Source::Sweep)
            }
            false => Ok(()),
        }
    });
    // Each operation in turn, then any.
    let mut kinds = 0..KINDS;
    while going.is_ok() && sender.calls < calls {
        let kind = kinds.next().unwrap_or_else(|| kind_by_chance(&mut rng));
        let call = by_chance(&mut oracle, kind, &mut rng);
        going = sender.send(&mut oracle, call, Source::Chance);
    }
    let _ = sender.flush();
    let Sender { to_others, sent, answers, .. } = sender;
    drop(to_others);
    holding.join().unwrap();
    progress.thread().unpark();
    progress.join().unwrap();
    let seconds = start.elapsed().as_secs();
    let (all, swept): (u64, u64) = (lengths.values().sum(), sent.values().map(|[swept, _]| swept).sum());
    println!("compare: {calls} calls, seed {seed}, no difference: {swept} of the sweep's {all}, the others by chance; {seconds} s");
    for (name, [swept, chance]) in &sent {
        let length = lengths.get(name).unwrap_or(&0);
        println!("compare: {name}: {swept} of the sweep's {length}, {chance} by chance");
    }
    println!("compare: answers {}", listed(&answers));
    let uncalled: Vec<&str> = sent.iter().filter(|(_, &calls)| calls == [0, 0]).map(|(&name, _)| name).collect();
    if calls >= FEW && !uncalled.is_empty() {
        println!("# never called: {}", uncalled.join(", "));
        return Ok(ExitCode::from(1));
    }
    Ok(ExitCode::SUCCESS)
}
