//! A row: the same calls by either side, and how each side is timed.

use beside::handler_rows::seconds;

/// Calls of one side, so many at a time, and what is to be done before them.
pub struct Side {
    pub prepare: Box<dyn FnMut()>,
    pub calls: Box<dyn FnMut()>,
    /// What is done beside the calls: it is timed too, and taken off.
    pub beside: Box<dyn FnMut()>,
}

impl Side {
    pub fn of(calls: impl FnMut() + 'static) -> Side {
        Side { prepare: Box::new(|| {}), calls: Box::new(calls), beside: Box::new(|| {}) }
    }

    /// Calls in rows; a row of no calls is what is done beside.
    pub fn rows(times: usize, row: impl FnMut(usize) + Clone + 'static) -> Side {
        let (mut calls, mut none) = (row.clone(), row);
        Side { beside: Box::new(move || none(0)), ..Side::of(move || calls(times)) }
    }
}

pub struct Row {
    pub name: String,
    pub contents: String,
    /// How many calls a side makes at a time.
    pub times: usize,
    /// The Rust, or what takes its place, and the port.
    pub sides: [Side; 2],
}

/// The least nanoseconds of a call so far.
#[derive(Clone, Copy)]
struct Least {
    calls: f64,
    beside: f64,
}

impl Least {
    const NONE: Least = Least { calls: f64::MAX, beside: f64::MAX };

    fn time(&mut self, side: &mut Side) {
        let of = |work: &mut dyn FnMut()| {
            let start = seconds();
            work();
            (seconds() - start) * 1e9
        };
        (side.prepare)();
        self.beside = self.beside.min(of(&mut side.beside));
        (side.prepare)();
        self.calls = self.calls.min(of(&mut side.calls));
    }

    fn value(self) -> f64 {
        self.calls - self.beside
    }
}

/// Nanoseconds of a call, and whether they are stable: the least of the even rounds and that of the
/// odd ones differ by at most 2 %.
#[derive(Clone, Copy)]
pub struct Measured {
    pub nanoseconds: f64,
    pub stable: bool,
}

/// Rounds of both sides in turn, until both are stable or the time is over.
pub fn measure(row: &mut Row, limit: f64) -> [Measured; 2] {
    const FEWEST: usize = 60;
    let mut least = [[Least::NONE; 2]; 2];
    let start = seconds();
    for round in 0.. {
        for (side, least) in row.sides.iter_mut().zip(&mut least) {
            least[round % 2].time(side);
        }
        let measured = least.map(|[even, odd]| {
            let both =
                Least { calls: even.calls.min(odd.calls), beside: even.beside.min(odd.beside) };
            let stable = (even.value() - odd.value()).abs() <= 0.02 * both.value();
            Measured { nanoseconds: both.value() / row.times as f64, stable }
        });
        let is_over = seconds() - start > limit;
        if is_over && round >= 1 || round >= FEWEST && measured.iter().all(|it| it.stable) {
            return measured;
        }
    }
    unreachable!()
}

/// A line for each row: nanoseconds of either side, each with a mark where it isn't stable.
pub fn print(rows: Vec<Row>, limit: f64) {
    for mut row in rows {
        let [rust, port] = measure(&mut row, limit)
            .map(|it| format!("{:.4}{}", it.nanoseconds, if it.stable { "" } else { "?" }));
        println!("{}\t{rust}\t{port}", row.name);
    }
}
