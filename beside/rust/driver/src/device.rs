//! A keyboard, a mouse and their controller that answer the Rust's writes, well or badly, and so make up a script that
//! fits the call.

use port_io::Device;
use std::collections::VecDeque;

/// Numbers by chance, the same for the same seed (splitmix64).
#[derive(Clone)]
pub struct Rng(pub u64);

impl Rng {
    pub fn next(&mut self) -> u64 {
        self.0 = self.0.wrapping_add(0x9E3779B97F4A7C15);
        let z = (self.0 ^ (self.0 >> 30)).wrapping_mul(0xBF58476D1CE4E5B9);
        let z = (z ^ (z >> 27)).wrapping_mul(0x94D049BB133111EB);
        z ^ (z >> 31)
    }

    pub fn below(&mut self, n: usize) -> usize {
        (self.next() % n as u64) as usize
    }

    /// True once in `n` times; never for 0.
    pub fn once_in(&mut self, n: usize) -> bool {
        n > 0 && self.below(n) == 0
    }

    pub fn pick<T: Copy>(&mut self, choices: &[T]) -> T {
        choices[self.below(choices.len())]
    }
}

/// Bytes that mean something somewhere, and some that mean nothing.
pub const TELLING: [u8; 40] = [
    0x00, 0x01, 0x02, 0x03, 0x04, 0x05, 0x1C, 0x1D, 0x1E, 0x20, 0x21, 0x22, 0x2A, 0x30, 0x3A, 0x3D, 0x41, 0x43, 0x45,
    0x46, 0x55, 0x5D, 0x5E, 0x7F, 0x80, 0x83, 0x9D, 0xAA, 0xAB, 0xC1, 0xE0, 0xE1, 0xEE, 0xF0, 0xFA, 0xFB, 0xFC, 0xFD,
    0xFE, 0xFF,
];

/// The bytes that end an exchange or make it try again.
pub const RESPONSES: [u8; 8] = [0xFA, 0xAA, 0xFE, 0xFC, 0xFD, 0x00, 0xEE, 0xFF];

/// The most often that each loop of the Rust goes round: status reads of a sending; polls, and reads of the controller's
/// test; reads of a mouse's and of a keyboard's reset.
pub const LIMITS: [usize; 4] = [255, 65535, 196605, 262140];

/// One deviation from a good device; the first two at the n-th read.
#[derive(Clone, Debug)]
pub enum Twist {
    None,
    /// This byte comes instead.
    Byte(usize, u8),
    /// These bytes come first, so many times.
    Stall(usize, Vec<u8>, usize),
    /// Counting from the n-th byte for a device on, this byte answers so many of them.
    Answers(usize, u8, usize),
    /// Every exchange takes as long as the Rust lets it, or one round less or more; each attempt is answered FE.
    Longest(isize),
}

pub struct Model {
    rng: Rng,
    /// One reply in so many is bad; 0: none.
    noise: usize,
    twist: Twist,
    /// Whether keys are pressed: what a data read gives where nothing waits.
    keys: bool,
    /// The length at which it ends the script.
    longest: usize,
    reads: usize,
    device_bytes: usize,
    idle: usize,
    /// Bytes that come before anything else.
    forced: VecDeque<(Vec<u8>, usize)>,
    /// Replies that wait, each with whether it is the mouse's.
    waiting: VecDeque<(u8, bool)>,
    to_mouse: bool,
    config_follows: bool,
    command: u8,
}

impl Model {
    pub fn new(seed: u64, noise: usize, twist: Twist, keys: bool, longest: usize) -> Model {
        let mut model = Model {
            rng: Rng(seed),
            noise,
            twist,
            keys,
            longest,
            reads: 0,
            device_bytes: 0,
            idle: 0,
            forced: VecDeque::new(),
            waiting: VecDeque::new(),
            to_mouse: false,
            config_follows: false,
            command: 0,
        };
        if !keys {
            model.stay_busy();
        }
        model
    }

    /// For the longest exchange: the sending's status reads.
    fn stay_busy(&mut self) {
        if let Twist::Longest(more) = self.twist {
            self.forced.push_back((vec![0x02], LIMITS[0].wrapping_add_signed(more - 1)));
            self.forced.push_back((vec![0x00], 1));
        }
    }

    fn status(&mut self) -> u8 {
        const CHIPSETS: [u8; 4] = [0x00, 0x1C, 0x14, 0x04];
        let base = if self.noise > 0 { self.rng.pick(&CHIPSETS) } else { 0x1C };
        let busy = if self.rng.once_in(4 * self.noise) { 0x02 } else { 0 };
        let status = match self.waiting.front() {
            Some((_, true)) => base | 0x21,
            Some((_, false)) => base | 0x01,
            None => {
                // Polling to the end is for stalls: this device answers late, and at last with what is waited for.
                self.idle += 1;
                if self.idle == 4 {
                    self.waiting.push_back((0xFA, self.to_mouse));
                } else if self.idle > 4 {
                    let late = self.rng.pick(&[0x00, 0x03, 0xAB, 0x83]);
                    self.waiting.push_back((late, self.to_mouse));
                }
                base
            }
        };
        if self.rng.once_in(8 * self.noise) {
            status ^ self.rng.pick(&[0x01, 0x20, 0x21])
        } else {
            status | busy
        }
    }

    fn data(&mut self) -> u8 {
        if let Some((byte, _)) = self.waiting.pop_front() {
            return byte;
        }
        if self.keys {
            self.scancode()
        } else {
            self.rng.pick(&TELLING)
        }
    }

    fn scancode(&mut self) -> u8 {
        const LOCKS: [u8; 3] = [0x3A, 0x45, 0x46];
        const HELD: [u8; 14] = [0x2A, 0xAA, 0x36, 0xB6, 0x1D, 0x9D, 0x38, 0xB8, 0x5B, 0xDB, 0x5C, 0xDC, 0x1D, 0x9D];
        if matches!(self.twist, Twist::Longest(_)) {
            self.stay_busy();
            return self.rng.pick(&LOCKS);
        }
        match self.rng.below(20) {
            0..=3 => self.rng.pick(&LOCKS),
            4..=6 => self.rng.pick(&[0xE0, 0xE1]),
            7..=11 => self.rng.pick(&HELD),
            12 => self.rng.pick(&[0x00, 0xFA]),
            13 => self.rng.pick(&[0x5D, 0x5E, 0xDD, 0xDE, 0x7F, 0x80, 0xFF]),
            14..=16 => self.rng.pick(&[0x1E, 0x9E, 0x02, 0x82, 0x30, 0xB0]),
            _ => self.rng.next() as u8,
        }
    }

    /// A reply, or a bad one in its place.
    fn reply(&mut self, good: u8) -> u8 {
        if !self.rng.once_in(self.noise) {
            good
        } else if self.rng.once_in(2) {
            self.rng.pick(&RESPONSES)
        } else {
            self.rng.pick(&TELLING)
        }
    }

    fn reply_all(&mut self, good: &[u8], of_mouse: bool) {
        for &byte in good {
            if self.rng.once_in(3 * self.noise) {
                let early = self.rng.pick(&TELLING);
                self.waiting.push_back((early, of_mouse));
            }
            let byte = self.reply(byte);
            if !self.rng.once_in(6 * self.noise) {
                self.waiting.push_back((byte, of_mouse));
            }
        }
    }

    fn device_byte(&mut self, value: u8) {
        if let Twist::Longest(more) = self.twist {
            self.forced.push_back((vec![0x01, 0x55], LIMITS[1].wrapping_add_signed(more - 1)));
            self.forced.push_back((vec![0x01, 0xFE], 1));
            return self.stay_busy();
        }
        let mouse = self.to_mouse;
        self.device_bytes += 1;
        if let Twist::Answers(from, byte, times) = self.twist {
            if (from..from + times).contains(&(self.device_bytes - 1)) {
                return self.waiting.push_back((byte, mouse));
            }
        }
        match (value, mouse) {
            (0x00, false) if self.command == 0xF0 => {
                let set = self.rng.pick(&[1, 2, 3, 0]);
                self.reply_all(&[0xFA, set], false);
            }
            (0xFF, false) => self.reply_all(&[0xFA, 0xAA], false),
            (0xFF, true) => self.reply_all(&[0xFA, 0xAA, 0x00], true),
            (0xF2, false) => {
                let second = self.rng.pick(&[0x83, 0x83, 0x41, 0xC1]);
                let identity: &[u8] = if self.rng.once_in(8) { &[0xFA, 0x00] } else { &[0xFA, 0xAB, second] };
                self.reply_all(identity, false);
            }
            (0xF2, true) => {
                let identity = self.rng.pick(&[3, 3, 3, 0, 4]);
                self.reply_all(&[0xFA, identity], true);
            }
            _ => self.reply_all(&[0xFA], mouse),
        }
        if value >= 0xE6 {
            self.command = value;
        }
    }
}

impl Device for Model {
    fn read(&mut self, port: u16, script: &mut Vec<u8>) {
        if script.len() >= self.longest {
            return;
        }
        let read = self.reads;
        self.reads += 1;
        if let Twist::Stall(at, bytes, times) = &self.twist {
            if *at == read {
                self.forced.push_back((bytes.clone(), *times));
            }
        }
        if let Some((bytes, times)) = self.forced.pop_front() {
            return (0..times).for_each(|_| script.extend(&bytes));
        }
        let byte = if port == 0x64 { self.status() } else { self.data() };
        script.push(match self.twist {
            Twist::Byte(at, instead) if at == read => instead,
            _ => byte,
        });
    }

    fn write(&mut self, port: u16, value: u8) {
        self.idle = 0;
        match (port, value) {
            (0x64, 0x20) => {
                let config = self.rng.pick(&[0x03, 0x33, 0x30, 0x47, 0x77, 0x20, 0xFF]);
                self.reply_all(&[config], false);
            }
            (0x64, 0x60) => self.config_follows = true,
            (0x64, 0xAA) => self.reply_all(&[0x55], false),
            (0x64, 0xAB | 0xA9) => self.reply_all(&[0x00], false),
            (0x64, 0xD4) => self.to_mouse = true,
            (0x64, _) => {}
            _ if self.config_follows => self.config_follows = false,
            _ => self.device_byte(value),
        }
    }
}
