//! Rows of handler calls of the Rust, and how they and the port's are timed: for the programs that link the port.

use event_types::Event;
use keycodes_ascii::KeyboardModifiers;
use mpmc::Queue;
use port_io::wire;
use ps2::PS2Keyboard;
use std::hint::black_box;

extern "C" {
    fn clock_gettime(clock: i32, time: *mut [i64; 2]) -> i32;
}

/// The calls of a row, and the room of a call's log.
pub const IN_A_ROW: usize = 100;
pub const ROOM: usize = 16;

/// The scripts of a plain key and of a lock.
pub const KEY: [u8; 1] = [0x1E];
pub const LOCK: [u8; 7] = [0x3A, 0x00, 0x01, 0xFA, 0x00, 0x01, 0xFA];

/// Seconds of processor time of this thread, which other programs hardly change.
pub fn seconds() -> f64 {
    const CLOCK_THREAD_CPUTIME_ID: i32 = 3;
    let mut time = [0; 2];
    assert_eq!(unsafe { clock_gettime(CLOCK_THREAD_CPUTIME_ID, &mut time) }, 0);
    time[0] as f64 + time[1] as f64 / 1e9
}

/// The Rust, its handler registered by its own `init`.
pub struct Rust {
    queue: Queue<Event>,
    script: Vec<u8>,
}

impl Rust {
    pub fn new() -> Rust {
        /// A keyboard that answers every step of keyboard initialisation.
        const GOOD_KEYBOARD: [u8; 27] = [
            0, 1, 0xFA, 0, 1, 0xFA, 1, 0xAB, 1, 0x83, 0, 1, 0xFA, 0, 1, 0xFA, 0, 1, 0xFA, 0, 1, 0xFA, 0, 1, 0xFA, 1, 1,
        ];
        let controller = Box::leak(Box::new(ps2::reach::controller(true, true)));
        let queue = Queue::new();
        wire().script = GOOD_KEYBOARD.to_vec();
        wire().begin(0, 64, false);
        keyboard::init(PS2Keyboard::new(controller), queue.clone()).expect("a keyboard");
        assert_eq!(wire().lack, 0, "the keyboard's script is long enough");
        Rust { queue, script: Vec::new() }
    }

    /// The scripts of a row's calls, one behind the other, so that nothing has to be done between two calls.
    pub fn set_script(&mut self, script: &[u8]) {
        self.script = script.repeat(IN_A_ROW);
        wire().script.clone_from(&self.script);
    }

    /// The bytes of a row's calls, one for each.
    pub fn set_row(&mut self, bytes: &[u8]) {
        self.script = bytes.to_vec();
        wire().script.clone_from(&self.script);
    }

    /// Takes the oldest event.
    pub fn pop(&self) -> Option<Event> {
        self.queue.pop()
    }

    /// What a row begins with.
    pub fn begin_row(&self) {
        wire().begin(0, ROOM * IN_A_ROW, false);
        self.queue.clear();
        *keyboard::reach::modifiers() = KeyboardModifiers::new();
    }

    /// A row of calls, by this way into the handler.
    pub fn row(&self, call: fn()) {
        self.begin_row();
        (0..IN_A_ROW).for_each(|_| call());
    }

    /// Events as many as a row has, pushed onto the queue and, where that is asked for, popped again.
    pub fn push_and_pop(&self, pops: bool) {
        let event = keycodes_ascii::KeyEvent::new(
            keycodes_ascii::Keycode::A,
            keycodes_ascii::KeyAction::Pressed,
            KeyboardModifiers::new(),
        );
        self.queue.clear();
        for _ in 0..IN_A_ROW {
            let _ = self.queue.push(Event::new_keyboard_event(black_box(event)));
        }
        if pops {
            (0..IN_A_ROW).for_each(|_| _ = black_box(self.queue.pop()));
        }
    }

    /// Whether a row did all that it should: used its script, wrote so many pairs, and left an event for each call.
    pub fn check(&mut self, script: &[u8], pairs: usize) {
        self.set_script(script);
        for call in [interrupts::raise, handle_directly] {
            self.row(call);
            let mut events = 0;
            self.queue.for_each(|_| events += 1);
            let left = (wire().at, wire().lack, wire().log.len(), events, log::errors().len());
            assert_eq!(left, (self.script.len(), 0, 2 * pairs * IN_A_ROW, IN_A_ROW, 0), "the Rust's row of calls");
        }
    }
}

/// The least and the median.
pub fn spread(mut values: Vec<f64>) -> (f64, f64) {
    values.sort_by(f64::total_cmp);
    (values[0], values[values.len() / 2])
}

/// Entering the Rust's handler by an interrupt frame, or an empty one in its place, and calling what it does without a frame.
pub use interrupts::{raise, register_again, register_nothing};
pub use keyboard::reach::{handle_directly, handle_prefixed};
