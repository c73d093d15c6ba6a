//! Keys and their events: keycodes, presses and releases, modifiers, characters, sides.

use crate::raw;
use core::error::Error;
use core::fmt;

/// A side of the table: its keyboard.
#[derive(Clone, Copy, Debug, PartialEq, Eq, Hash, PartialOrd, Ord)]
pub enum Side {
    /// Side 1.
    First,
    /// Side 2.
    Second,
}

impl Side {
    /// 1 or 2.
    #[must_use]
    pub const fn number(self) -> u32 {
        match self {
            Side::First => 1,
            Side::Second => 2,
        }
    }
}

/// Whether a key was pressed or released.
#[derive(Clone, Copy, Debug, PartialEq, Eq, Hash, PartialOrd, Ord)]
pub enum Action {
    /// The key was pressed.
    Pressed,
    /// The key was released.
    Released,
}

impl Action {
    /// 0 or 1.
    #[must_use]
    pub const fn number(self) -> u32 {
        match self {
            Action::Pressed => 0,
            Action::Released => 1,
        }
    }
}

/// The key of an event, by its press code in scancode set 1.
#[derive(Clone, Copy, Debug, PartialEq, Eq, Hash, PartialOrd, Ord)]
#[repr(u8)]
pub enum Keycode {
    /// Too many keys at once.
    OverflowError = 0x00,
    /// Escape.
    Escape = 0x01,
    /// The digit 1.
    Num1 = 0x02,
    /// The digit 2.
    Num2 = 0x03,
    /// The digit 3.
    Num3 = 0x04,
    /// The digit 4.
    Num4 = 0x05,
    /// The digit 5.
    Num5 = 0x06,
    /// The digit 6.
    Num6 = 0x07,
    /// The digit 7.
    Num7 = 0x08,
    /// The digit 8.
    Num8 = 0x09,
    /// The digit 9.
    Num9 = 0x0A,
    /// The digit 0.
    Num0 = 0x0B,
    /// `-` and `_`.
    Minus = 0x0C,
    /// `=` and `+`.
    Equals = 0x0D,
    /// Backspace.
    Backspace = 0x0E,
    /// Tab.
    Tab = 0x0F,
    /// The letter Q.
    Q = 0x10,
    /// The letter W.
    W = 0x11,
    /// The letter E.
    E = 0x12,
    /// The letter R.
    R = 0x13,
    /// The letter T.
    T = 0x14,
    /// The letter Y.
    Y = 0x15,
    /// The letter U.
    U = 0x16,
    /// The letter I.
    I = 0x17,
    /// The letter O.
    O = 0x18,
    /// The letter P.
    P = 0x19,
    /// `[` and `{`.
    LeftBracket = 0x1A,
    /// `]` and `}`.
    RightBracket = 0x1B,
    /// Enter, also the keypad's.
    Enter = 0x1C,
    /// Control, left or right.
    Control = 0x1D,
    /// The letter A.
    A = 0x1E,
    /// The letter S.
    S = 0x1F,
    /// The letter D.
    D = 0x20,
    /// The letter F.
    F = 0x21,
    /// The letter G.
    G = 0x22,
    /// The letter H.
    H = 0x23,
    /// The letter J.
    J = 0x24,
    /// The letter K.
    K = 0x25,
    /// The letter L.
    L = 0x26,
    /// `;` and `:`.
    Semicolon = 0x27,
    /// `'` and `"`.
    Quote = 0x28,
    /// `` ` `` and `~`.
    Backtick = 0x29,
    /// The left Shift.
    LeftShift = 0x2A,
    /// `\\` and `|`.
    Backslash = 0x2B,
    /// The letter Z.
    Z = 0x2C,
    /// The letter X.
    X = 0x2D,
    /// The letter C.
    C = 0x2E,
    /// The letter V.
    V = 0x2F,
    /// The letter B.
    B = 0x30,
    /// The letter N.
    N = 0x31,
    /// The letter M.
    M = 0x32,
    /// `,` and `<`.
    Comma = 0x33,
    /// `.` and `>`.
    Period = 0x34,
    /// `/` and `?`, also the keypad's.
    Slash = 0x35,
    /// The right Shift.
    RightShift = 0x36,
    /// Also PrintScreen.
    PadMultiply = 0x37,
    /// Alt, left or right.
    Alt = 0x38,
    /// The space bar.
    Space = 0x39,
    /// Caps Lock.
    CapsLock = 0x3A,
    /// F1.
    F1 = 0x3B,
    /// F2.
    F2 = 0x3C,
    /// F3.
    F3 = 0x3D,
    /// F4.
    F4 = 0x3E,
    /// F5.
    F5 = 0x3F,
    /// F6.
    F6 = 0x40,
    /// F7.
    F7 = 0x41,
    /// F8.
    F8 = 0x42,
    /// F9.
    F9 = 0x43,
    /// F10.
    F10 = 0x44,
    /// Num Lock.
    NumLock = 0x45,
    /// Scroll Lock.
    ScrollLock = 0x46,
    /// Also Pad7.
    Home = 0x47,
    /// Also Pad8.
    Up = 0x48,
    /// Also Pad9.
    PageUp = 0x49,
    /// The keypad's `-`.
    PadMinus = 0x4A,
    /// Also Pad4.
    Left = 0x4B,
    /// The keypad's `5`.
    Pad5 = 0x4C,
    /// Also Pad6.
    Right = 0x4D,
    /// The keypad's `+`.
    PadPlus = 0x4E,
    /// Also Pad1.
    End = 0x4F,
    /// Also Pad2.
    Down = 0x50,
    /// Also Pad3.
    PageDown = 0x51,
    /// Also Pad0.
    Insert = 0x52,
    /// Also PadDecimal.
    Delete = 0x53,
    /// A key with no name, 54.
    Unknown1 = 0x54,
    /// A key with no name, 55.
    Unknown2 = 0x55,
    /// The key next to the left Shift on boards with 102 keys.
    NonUsBackslash = 0x56,
    /// F11.
    F11 = 0x57,
    /// F12.
    F12 = 0x58,
    /// A key with code 59.
    Pause = 0x59,
    /// A key with no name, 5A.
    Unknown3 = 0x5A,
    /// The left Super key.
    SuperKeyLeft = 0x5B,
    /// The right Super key.
    SuperKeyRight = 0x5C,
    /// Menu.
    Menu = 0x5D,
    /// A release code. It occurs in no event of a record that was once fresh, as the five below it.
    ControlReleased = 0x9D,
    /// A release code, in no event.
    AltReleased = 0xB8,
    /// A release code, in no event.
    LeftShiftReleased = 0xAA,
    /// A release code, in no event.
    RightShiftReleased = 0xB6,
    /// A release code, in no event.
    SuperKeyLeftReleased = 0xDB,
    /// A release code, in no event.
    SuperKeyRightReleased = 0xDC,
}

impl Keycode {
    /// Every keycode. The first 94 are those of events, in the order of their numbers, 00 to 5D.
    pub const ALL: [Keycode; 100] = [
        Keycode::OverflowError,
        Keycode::Escape,
        Keycode::Num1,
        Keycode::Num2,
        Keycode::Num3,
        Keycode::Num4,
        Keycode::Num5,
        Keycode::Num6,
        Keycode::Num7,
        Keycode::Num8,
        Keycode::Num9,
        Keycode::Num0,
        Keycode::Minus,
        Keycode::Equals,
        Keycode::Backspace,
        Keycode::Tab,
        Keycode::Q,
        Keycode::W,
        Keycode::E,
        Keycode::R,
        Keycode::T,
        Keycode::Y,
        Keycode::U,
        Keycode::I,
        Keycode::O,
        Keycode::P,
        Keycode::LeftBracket,
        Keycode::RightBracket,
        Keycode::Enter,
        Keycode::Control,
        Keycode::A,
        Keycode::S,
        Keycode::D,
        Keycode::F,
        Keycode::G,
        Keycode::H,
        Keycode::J,
        Keycode::K,
        Keycode::L,
        Keycode::Semicolon,
        Keycode::Quote,
        Keycode::Backtick,
        Keycode::LeftShift,
        Keycode::Backslash,
        Keycode::Z,
        Keycode::X,
        Keycode::C,
        Keycode::V,
        Keycode::B,
        Keycode::N,
        Keycode::M,
        Keycode::Comma,
        Keycode::Period,
        Keycode::Slash,
        Keycode::RightShift,
        Keycode::PadMultiply,
        Keycode::Alt,
        Keycode::Space,
        Keycode::CapsLock,
        Keycode::F1,
        Keycode::F2,
        Keycode::F3,
        Keycode::F4,
        Keycode::F5,
        Keycode::F6,
        Keycode::F7,
        Keycode::F8,
        Keycode::F9,
        Keycode::F10,
        Keycode::NumLock,
        Keycode::ScrollLock,
        Keycode::Home,
        Keycode::Up,
        Keycode::PageUp,
        Keycode::PadMinus,
        Keycode::Left,
        Keycode::Pad5,
        Keycode::Right,
        Keycode::PadPlus,
        Keycode::End,
        Keycode::Down,
        Keycode::PageDown,
        Keycode::Insert,
        Keycode::Delete,
        Keycode::Unknown1,
        Keycode::Unknown2,
        Keycode::NonUsBackslash,
        Keycode::F11,
        Keycode::F12,
        Keycode::Pause,
        Keycode::Unknown3,
        Keycode::SuperKeyLeft,
        Keycode::SuperKeyRight,
        Keycode::Menu,
        Keycode::ControlReleased,
        Keycode::AltReleased,
        Keycode::LeftShiftReleased,
        Keycode::RightShiftReleased,
        Keycode::SuperKeyLeftReleased,
        Keycode::SuperKeyRightReleased,
    ];

    /// The keycode's number.
    #[must_use]
    pub const fn number(self) -> u8 {
        self as u8
    }

    /// The keycode that has this number.
    #[must_use]
    pub fn from_number(number: u8) -> Option<Keycode> {
        match Keycode::ALL.get(usize::from(number)) {
            Some(keycode) if keycode.number() == number => Some(*keycode),
            _ => Keycode::ALL.into_iter().find(|keycode| keycode.number() == number),
        }
    }

    /// The ASCII character of this key under modifiers, if it has one.
    ///
    /// ```
    /// use vurdellow::{Keycode, Modifiers};
    /// assert_eq!(Keycode::A.character(Modifiers::NONE), Some('a'));
    /// assert_eq!(Keycode::A.character(Modifiers::SHIFT_LEFT), Some('A'));
    /// assert_eq!(Keycode::F1.character(Modifiers::NONE), None);
    /// ```
    #[must_use]
    pub fn character(self, modifiers: Modifiers) -> Option<char> {
        // A keycode and 16 bits of flags always stand for something; a character is ASCII.
        match raw::vd_character(u32::from(self.number()), u32::from(modifiers.bits())) {
            0 => None,
            character => char::from_u32(character),
        }
    }
}

/// A number that is no keycode's.
#[derive(Clone, Copy, Debug, PartialEq, Eq, Hash)]
pub struct NoKeycode(
    /// The number.
    pub u8,
);

impl fmt::Display for NoKeycode {
    fn fmt(&self, f: &mut fmt::Formatter<'_>) -> fmt::Result {
        write!(f, "no keycode has the number {:02X}", self.0)
    }
}

impl Error for NoKeycode {}

impl TryFrom<u8> for Keycode {
    type Error = NoKeycode;

    fn try_from(number: u8) -> Result<Keycode, NoKeycode> {
        Keycode::from_number(number).ok_or(NoKeycode(number))
    }
}

/// The modifier keys that are held, and the locks that are on.
#[derive(Clone, Copy, Debug, Default, PartialEq, Eq, Hash)]
pub struct Modifiers(u16);

impl Modifiers {
    /// No flag.
    pub const NONE: Modifiers = Modifiers(0);
    /// The left Shift key is held.
    pub const SHIFT_LEFT: Modifiers = Modifiers(1 << 0);
    /// The right Shift key is held.
    pub const SHIFT_RIGHT: Modifiers = Modifiers(1 << 1);
    /// The left Control key is held.
    pub const CONTROL_LEFT: Modifiers = Modifiers(1 << 2);
    /// The right Control key is held.
    pub const CONTROL_RIGHT: Modifiers = Modifiers(1 << 3);
    /// An Alt key is held.
    pub const ALT: Modifiers = Modifiers(1 << 4);
    /// The left Super key is held.
    pub const SUPER_KEY_LEFT: Modifiers = Modifiers(1 << 5);
    /// The right Super key is held.
    pub const SUPER_KEY_RIGHT: Modifiers = Modifiers(1 << 6);
    /// Caps Lock is on.
    pub const CAPS_LOCK: Modifiers = Modifiers(1 << 7);
    /// Num Lock is on.
    pub const NUM_LOCK: Modifiers = Modifiers(1 << 8);
    /// Scroll Lock is on.
    pub const SCROLL_LOCK: Modifiers = Modifiers(1 << 9);
    /// The right Alt key, AltGr, is held.
    pub const ALT_RIGHT: Modifiers = Modifiers(1 << 10);

    /// The flags as bits, as the constants have them.
    #[must_use]
    pub const fn bits(self) -> u16 {
        self.0
    }

    /// The flags that these bits say.
    #[must_use]
    pub const fn from_bits(bits: u16) -> Modifiers {
        Modifiers(bits)
    }

    /// Whether every flag of the other is one of these.
    ///
    /// ```
    /// use vurdellow::Modifiers;
    /// let held = Modifiers::SHIFT_LEFT | Modifiers::CONTROL_LEFT;
    /// assert!(held.contains(Modifiers::SHIFT_LEFT));
    /// assert!(!held.contains(Modifiers::SHIFT_LEFT | Modifiers::ALT));
    /// ```
    #[must_use]
    pub const fn contains(self, other: Modifiers) -> bool {
        self.0 & other.0 == other.0
    }

    /// Whether the two share a flag.
    #[must_use]
    pub const fn intersects(self, other: Modifiers) -> bool {
        self.0 & other.0 != 0
    }

    /// Whether a Shift key is held, left or right.
    #[must_use]
    pub const fn is_shift(self) -> bool {
        self.intersects(Modifiers(Modifiers::SHIFT_LEFT.0 | Modifiers::SHIFT_RIGHT.0))
    }

    /// Whether a Control key is held, left or right.
    #[must_use]
    pub const fn is_control(self) -> bool {
        self.intersects(Modifiers(Modifiers::CONTROL_LEFT.0 | Modifiers::CONTROL_RIGHT.0))
    }

    /// Whether an Alt key is held.
    #[must_use]
    pub const fn is_alt(self) -> bool {
        self.intersects(Modifiers::ALT)
    }

    /// Whether the right Alt key, AltGr, is held.
    #[must_use]
    pub const fn is_alt_gr(self) -> bool {
        self.intersects(Modifiers::ALT_RIGHT)
    }

    /// Whether a Super key is held, left or right.
    #[must_use]
    pub const fn is_super_key(self) -> bool {
        self.intersects(Modifiers(Modifiers::SUPER_KEY_LEFT.0 | Modifiers::SUPER_KEY_RIGHT.0))
    }

    /// Whether Caps Lock is on.
    #[must_use]
    pub const fn is_caps_lock(self) -> bool {
        self.intersects(Modifiers::CAPS_LOCK)
    }

    /// Whether Num Lock is on.
    #[must_use]
    pub const fn is_num_lock(self) -> bool {
        self.intersects(Modifiers::NUM_LOCK)
    }

    /// Whether Scroll Lock is on.
    #[must_use]
    pub const fn is_scroll_lock(self) -> bool {
        self.intersects(Modifiers::SCROLL_LOCK)
    }
}

impl core::ops::BitOr for Modifiers {
    type Output = Modifiers;

    fn bitor(self, other: Modifiers) -> Modifiers {
        Modifiers(self.0 | other.0)
    }
}

/// A key event: the side that it came from, the key, whether it was pressed or released, and the flags, this byte's own change included.
#[derive(Clone, Copy, Debug, PartialEq, Eq, Hash)]
pub struct Event {
    /// The side that the key was pressed at.
    pub side: Side,
    /// The key.
    pub keycode: Keycode,
    /// Whether the key was pressed or released.
    pub action: Action,
    /// The flags, with this byte's own change.
    pub modifiers: Modifiers,
}

impl Event {
    /// Whether the key was pressed.
    #[must_use]
    pub const fn is_press(&self) -> bool {
        matches!(self.action, Action::Pressed)
    }

    /// The ASCII character of the key under the event's modifiers, if it has one.
    #[must_use]
    pub fn character(&self) -> Option<char> {
        self.keycode.character(self.modifiers)
    }

    /// The byte by which a report takes this event ([`Report::add`](crate::Report::add)).
    #[must_use]
    pub fn code(&self) -> u8 {
        // A keycode and an action always stand for something, and a code is a byte.
        raw::vd_event_code(u32::from(self.keycode.number()), self.action.number()) as u8
    }

    /// The event that was taken; none if none waited or the taking was refused, which have side 0.
    pub(crate) fn taken(taken: raw::vd_taken) -> Option<Event> {
        let side = match taken.side {
            1 => Side::First,
            2 => Side::Second,
            _ => return None,
        };
        Some(Event {
            side,
            keycode: Keycode::from_number(taken.keycode as u8)?,
            action: if taken.action == 0 { Action::Pressed } else { Action::Released },
            modifiers: Modifiers(taken.flags as u16),
        })
    }
}
