//! Rows of handler calls, takings and a dispatcher's steps: each from a fresh record on, with
//! nothing taken.

use crate::measure::{Row, Side};
use beside::handler_rows::{handle_directly, handle_prefixed, Rust, IN_A_ROW, KEY, LOCK};
use beside::library::{self as vd, InARow};
use beside::words::{COUNT, DISPATCHER_WORDS, HANDLER_WORDS};
use std::cell::RefCell;
use std::hint::black_box;
use std::rc::Rc;

/// Makes a call, whose answer is left where the call puts it: a copy of it would wait for the
/// call's own stores.
macro_rules! made {
    ($call:expr) => {{
        let answer = $call;
        black_box(&answer);
    }};
}
pub(crate) use made;

/// Numbers as a caller should place them: the first sixteen, of which every call writes some, lie
/// on one page.
#[repr(align(128))]
#[derive(Clone)]
struct Placed<const N: usize>([u64; N]);

/// The rows that are made at a time, the calls that a side of two keyboards has places for, and the
/// room of a log.
const ROWS: usize = 50;
const SHARE: usize = 96;
const ROOM: usize = 20;
const TOURNAMENT: u32 = 1;

/// The row of which docs/PERFORMANCE.md tells keys in a second.
pub const DRAINED: &str = "key, its event taken at once, `vd_handle` and `vd_take`";

/// A lock whose keyboard answers at the third poll.
const SLOW_LOCK: [u8; 11] = [0x3A, 0x00, 0x00, 0x00, 0x01, 0xFA, 0x00, 0x00, 0x00, 0x01, 0xFA];
const SHIFT: [u8; 1] = [0x2A];
const PREFIX: [u8; 1] = [0xE0];
const CURSOR: [u8; 1] = [0x48];

/// Which calls a row has: their scripts in turn, the side, and what the table is.
#[derive(Clone, Copy)]
struct Calls {
    scripts: &'static [&'static [u8]],
    keyboards: u32,
    profile: u32,
    side: u32,
    times: usize,
}

impl Calls {
    fn of(scripts: &'static [&'static [u8]]) -> Calls {
        Calls { scripts, keyboards: 1, profile: 0, side: 1, times: IN_A_ROW }
    }

    /// Through C: the record is lent as numbers.
    fn exported(self) -> Side {
        let (mut placed, mut log) = (Placed([0; HANDLER_WORDS]), [0; ROOM]);
        Side::rows(self.times, move |times| {
            for _ in 0..ROWS {
                self.row(&mut placed.0, &mut log, times);
            }
        })
    }

    fn row(self, words: &mut [u64; HANDLER_WORDS], log: &mut [u8], times: usize) {
        vd::handler_fresh(black_box(words), self.keyboards, self.profile);
        for _ in 0..times {
            for script in self.scripts {
                made!(vd::handle(words, self.side, black_box(script), log));
            }
        }
    }

    /// By one of the port's ways to pass a record.
    fn linked(self, calls: InARow) -> Side {
        let mut log = [0; ROOM];
        assert_eq!(self.row_by(calls, &mut log, self.times), self.times, "the events of a row");
        Side::rows(self.times, move |times| {
            for _ in 0..ROWS {
                black_box(self.row_by(calls, &mut log, times));
            }
        })
    }

    /// So many times the calls of its scripts, which are one or two.
    fn row_by(self, calls: InARow, log: &mut [u8], times: usize) -> usize {
        let (first, last) = (self.scripts[0], self.scripts[self.scripts.len() - 1]);
        let (two, rated, second) =
            (self.keyboards == 2, self.profile == TOURNAMENT, self.side == 2);
        let times = times * self.scripts.len();
        calls(black_box(first), black_box(last), log, times, two, rated, second)
    }

    /// Each of the port's ways to make the calls on a record.
    fn ways(self) -> [(&'static str, Side); 3] {
        [
            ("`vd_handle`", self.exported()),
            ("by value", self.linked(vd::handler_calls_by_value)),
            ("in place", self.linked(vd::handler_calls_in_place)),
        ]
    }

    /// The events that a row gives are all there: a library that is linked wrongly isn't measured.
    fn check_events(self) {
        let (mut words, mut log) = ([0; HANDLER_WORDS], [0; ROOM]);
        self.row(&mut words, &mut log, self.times);
        assert_eq!(words[COUNT], self.times as u64, "the events of a row");
    }

    /// The same, and each call uses its script.
    fn check(self) {
        self.check_events();
        let (mut words, mut log) = ([0; HANDLER_WORDS], [0; ROOM]);
        vd::handler_fresh(&mut words, self.keyboards, self.profile);
        let used = vd::handle(&mut words, self.side, self.scripts[0], &mut log).used;
        assert_eq!(used, self.scripts[0].len(), "the bytes of a script");
    }
}

/// The Rust's reading of a byte and `handle_keyboard_input`, called with no frame.
fn theirs(rust: &Rc<RefCell<Rust>>, script: &'static [u8], call: fn()) -> Side {
    let (ready, rows) = (rust.clone(), rust.clone());
    let row = move |times| {
        let rust = rows.borrow();
        for _ in 0..ROWS {
            if times == 0 {
                rust.begin_row()
            } else {
                rust.row(call)
            }
        }
    };
    Side {
        prepare: Box::new(move || ready.borrow_mut().set_script(script)),
        ..Side::rows(IN_A_ROW, row)
    }
}

fn row(name: &str, contents: &str, calls: usize, sides: [Side; 2]) -> Row {
    Row { name: name.to_string(), contents: contents.to_string(), times: ROWS * calls, sides }
}

/// Handler calls that the Rust makes too, with each of the port's ways.
fn calls(rust: &Rc<RefCell<Rust>>) -> Vec<Row> {
    let scripts: [(&str, &'static [&'static [u8]], usize, &str); 4] = [
        (
            "plain key",
            &[&KEY],
            0,
            "100 calls in a row from a fresh record on, nothing taken; the \
            Rust's reading of the byte and `handle_keyboard_input`, called with no frame",
        ),
        ("Shift", &[&SHIFT], 0, "the same, each call a press of the left Shift"),
        ("lock", &[&LOCK], 2, "the same, each with its lamp exchange of 6 reads and 2 writes"),
        ("lock, answered at the third poll", &[&SLOW_LOCK], 2, "the same, with 10 reads"),
    ];
    let mut rows = Vec::new();
    for (name, scripts, pairs, contents) in scripts {
        rust.borrow_mut().check(scripts[0], pairs);
        let ours = Calls::of(scripts);
        ours.check();
        let mut add = |way: &str, contents: &str, side| {
            let sides = [theirs(rust, scripts[0], handle_directly), side];
            rows.push(row(&format!("{name}, {way}"), contents, IN_A_ROW, sides));
        };
        for (at, (way, side)) in ours.ways().into_iter().enumerate() {
            add(way, if at == 0 { contents } else { "the same calls" }, side);
        }
        let on_state = ours.linked(vd::handler_calls_on_state);
        add(
            "without the places",
            "the same calls, on the record's state: whoever holds the places stores the event",
            on_state,
        );
    }
    rows
}

/// Handler calls that the Rust has none of, or makes otherwise: the port's own
/// plain call takes its place.
fn own_calls() -> Vec<Row> {
    let scripts: [(&str, &'static [&'static [u8]]); 4] = [
        ("plain key", &[&KEY]),
        ("Shift", &[&SHIFT]),
        ("lock", &[&LOCK]),
        ("lock, answered at the third poll", &[&SLOW_LOCK]),
    ];
    let at_table = "96 calls in a row; in the Rust's place the port's own at a table with one \
        keyboard";
    let mut rows = Vec::new();
    for (name, scripts) in scripts {
        let one = Calls { times: SHARE, ..Calls::of(scripts) };
        for side in [1, 2] {
            let two = Calls { keyboards: 2, side, ..one };
            two.check();
            for ((way, ours), (_, own)) in two.ways().into_iter().zip(one.ways()) {
                let name = format!("{name}, {way}, side {side} of two keyboards");
                rows.push(row(&name, at_table, SHARE, [own, ours]));
            }
        }
    }
    let plain = Calls { times: SHARE, ..Calls::of(&[&KEY]) };
    let profile = Calls { profile: TOURNAMENT, ..plain };
    profile.check();
    let under = "A, which the profile has; in the Rust's place the port's own plain key";
    for ((way, ours), (_, own)) in profile.ways().into_iter().zip(plain.ways()) {
        rows.push(row(&format!("key under the profile, {way}"), under, SHARE, [own, ours]));
    }
    rows
}

/// E0 and its key: two calls of the port's handler and of the Rust's.
fn prefixed(rust: &Rc<RefCell<Rust>>) -> Vec<Row> {
    let ours = Calls::of(&[&PREFIX, &CURSOR]);
    ours.check_events();
    let contents = "two calls of either side; the Rust's reading of E0 and of its key, and \
        `handle_keyboard_input`";
    let both = |way, side| {
        let theirs = theirs(rust, &[PREFIX[0], CURSOR[0]], handle_prefixed);
        row(&format!("E0 and its key, {way}"), contents, IN_A_ROW, [theirs, side])
    };
    ours.ways().into_iter().map(|(way, side)| both(way, side)).collect()
}

/// Takings of the events of a full row.
fn takings(rust: &Rc<RefCell<Rust>>) -> Row {
    let theirs = rust.clone();
    let pops = move |times| {
        let rust = theirs.borrow();
        (0..ROWS).for_each(|_| rust.push_and_pop(times > 0));
    };
    let (mut full, mut log) = (Placed([0; HANDLER_WORDS]), [0; ROOM]);
    Calls::of(&[&KEY]).row(&mut full.0, &mut log, IN_A_ROW);
    let mut words = full.clone();
    let take = move |times| {
        for _ in 0..ROWS {
            black_box(&mut words.0).copy_from_slice(&full.0);
            (0..times).for_each(|_| made!(vd::take(&mut words.0)));
        }
    };
    let contents = "100 takings in a row from a record with as many events; the Rust's `pop` of \
        its queue's stand-in";
    row("`vd_take`", contents, IN_A_ROW, [Side::rows(IN_A_ROW, pops), Side::rows(IN_A_ROW, take)])
}

/// Keys pressed and released, none of them a lock, each event taken as soon as it waits.
fn drained(rust: &Rc<RefCell<Rust>>) -> Row {
    const KEYS: usize = IN_A_ROW;
    let script: &'static [u8] =
        Box::leak((0..KEYS as u8).map(|i| 0x10 + (i / 2 % 16) | i % 2 << 7).collect());
    let (ready, theirs) = (rust.clone(), rust.clone());
    let pops = move || {
        let rust = theirs.borrow();
        for _ in 0..ROWS {
            rust.begin_row();
            for _ in 0..KEYS {
                handle_directly();
                black_box(rust.pop());
            }
        }
    };
    let (mut placed, mut log) = (Placed([0; HANDLER_WORDS]), [0; ROOM]);
    let words = &mut placed.0;
    vd::handler_fresh(words, 1, 0);
    for (at, &byte) in script.iter().enumerate() {
        assert_eq!(
            (vd::handle(words, 1, &script[at..], &mut log).used, vd::take(words).keycode),
            (1, u32::from(byte & 0x7F))
        );
    }
    let takes = move || {
        for _ in 0..ROWS {
            vd::handler_fresh(black_box(&mut placed.0), 1, 0);
            for at in 0..KEYS {
                made!(vd::handle(&mut placed.0, 1, black_box(&script[at..]), &mut log));
                made!(vd::take(&mut placed.0));
            }
        }
    };
    let theirs =
        Side { prepare: Box::new(move || ready.borrow_mut().set_row(script)), ..Side::of(pops) };
    let contents =
        "keys pressed and released, none a lock; `vd_handle` and `vd_take` for each byte, and the \
            Rust's `pop`";
    row(DRAINED, contents, KEYS, [theirs, Side::of(takes)])
}

/// Steps on the scripts of both sides and of the mouse, the state lent as numbers.
fn exported_steps(scripts: [Vec<u8>; 3]) -> Side {
    let (mut placed, mut log) = (Placed([0; DISPATCHER_WORDS]), [0; ROOM]);
    Side::rows(IN_A_ROW, move |times| {
        for _ in 0..ROWS {
            vd::dispatcher_fresh(black_box(&mut placed.0), 2, 0, 0);
            let [first, second, third] = scripts.each_ref().map(|script| black_box(&script[..]));
            (0..times).for_each(|_| {
                made!(vd::dispatcher_step(&mut placed.0, first, second, third, &mut log))
            });
        }
    })
}

fn linked_steps(scripts: [Vec<u8>; 3]) -> Side {
    let mut log = [0; ROOM];
    Side::rows(IN_A_ROW, move |times| {
        for _ in 0..ROWS {
            let [first, second, third] = scripts.each_ref().map(|script| black_box(&script[..]));
            black_box(vd::dispatcher_steps(first, second, third, &mut log, times));
        }
    })
}

fn steps() -> Vec<Row> {
    let (keys, packets) = (vec![0x1E; IN_A_ROW / 2], [0x08, 0x01, 0x00].repeat(IN_A_ROW));
    let scripts = [
        ("plain key", [keys.clone(), keys, Vec::new()], "both sides in turn"),
        ("packet", [Vec::new(), Vec::new(), packets], "each reads a packet"),
        ("idle", [Vec::new(), Vec::new(), Vec::new()], "for none of which anything waits"),
    ];
    let plain = Calls::of(&[&KEY]);
    let mut rows = Vec::new();
    for (name, scripts, what) in scripts {
        let contents = format!(
            "100 steps in a row from a fresh state on, {what}, nothing taken; in the \
                Rust's place the port's own handler call, plain key, the same way"
        );
        let sides = [plain.exported(), exported_steps(scripts.clone())];
        rows.push(row(&format!("`vd_dispatcher_step`, {name}"), &contents, IN_A_ROW, sides));
        let sides = [plain.linked(vd::handler_calls_by_value), linked_steps(scripts)];
        rows.push(row(&format!("dispatcher's step by value, {name}"), &contents, IN_A_ROW, sides));
    }
    rows
}

pub fn rows() -> Vec<Row> {
    let rust = Rc::new(RefCell::new(Rust::new()));
    let mut rows = calls(&rust);
    rows.extend(prefixed(&rust));
    rows.extend(own_calls());
    rows.push(takings(&rust));
    rows.push(drained(&rust));
    rows.extend(steps());
    rows
}
