//! The library's functions as they are declared in Rattle (`crates/vurdellow/src`), and the only module with `unsafe` in it.
//!
//! Structs and functions stand here in Rattle's own words; `tests/library` of the repository compares them, one by one.

#![allow(non_camel_case_types)]

/// Declares functions of the library and makes a safe function of each, with a slice for each pointer and length of C.
macro_rules! functions {
    ($(fn $name:ident($($arguments:tt)*) $(-> $answer:ty)?;)*) => {
        $(functions!(@ $name [$($answer)?] [] [] [] $($arguments)*);)*
    };
    (@ $name:ident [$answer:ty] [$($lent:tt)*] [$($crosses:tt)*] [$($given:tt)*] $x:ident: &[$t:ty] $(, $($rest:tt)*)?) => {
        functions!(@ $name [$answer] [$($lent)* $x: &[$t],] [$($crosses)* $x: *const $t, _: usize,] [$($given)* $x.as_ptr(), $x.len(),] $($($rest)*)?);
    };
    (@ $name:ident [$answer:ty] [$($lent:tt)*] [$($crosses:tt)*] [$($given:tt)*] $x:ident: &mut [$t:ty] $(, $($rest:tt)*)?) => {
        functions!(@ $name [$answer] [$($lent)* $x: &mut [$t],] [$($crosses)* $x: *mut $t, _: usize,] [$($given)* $x.as_mut_ptr(), $x.len(),] $($($rest)*)?);
    };
    (@ $name:ident [$answer:ty] [$($lent:tt)*] [$($crosses:tt)*] [$($given:tt)*] $x:ident: $t:ty $(, $($rest:tt)*)?) => {
        functions!(@ $name [$answer] [$($lent)* $x: $t,] [$($crosses)* $x: $t,] [$($given)* $x,] $($($rest)*)?);
    };
    (@ $name:ident [$answer:ty] [$($lent:tt)*] [$($crosses:tt)*] [$($given:tt)*]) => {
        pub(crate) fn $name($($lent)*) -> $answer {
            extern "C" {
                fn $name($($crosses)*) -> $answer;
            }
            // SAFETY: the library is proved to touch nothing but what it is lent, within the lengths, for any contents, and to end; it asks
            // only that each pointer and length are those of an array, and that what it writes overlaps nothing else. They come from slices
            // that are borrowed until it returns, and what is borrowed mutably overlaps nothing. Numbers and structs of numbers go by
            // value, and every bit pattern is one, so what comes back is valid too. The declaration is the library's: tests/library.
            unsafe { $name($($given)*) }
        }
    };
}

#[repr(C)]
#[derive(Clone, Copy, Debug, PartialEq, Eq)]
pub(crate) struct vd_answer {
    pub refusal: u32,
    pub port: u32,
    pub used: usize,
    pub pairs: usize,
    pub value: u64,
}

#[repr(C)]
#[derive(Clone, Copy, Debug, PartialEq, Eq)]
pub(crate) struct vd_kept {
    pub refusal: u32,
    pub port: u32,
    pub used: usize,
    pub pairs: usize,
    pub count: u32,
    pub others: u32,
    pub bytes: [u8; 16],
}

#[repr(C)]
#[derive(Clone, Copy, Debug, PartialEq, Eq)]
pub(crate) struct vd_packet {
    pub refusal: u32,
    pub port: u32,
    pub used: usize,
    pub buttons: u32,
    pub x: i32,
    pub y: i32,
    pub wheel: i32,
}

#[repr(C)]
#[derive(Clone, Copy, Debug, PartialEq, Eq)]
pub(crate) struct vd_controller {
    pub initialized: u32,
    pub keyboard: u32,
    pub mouse: u32,
}

#[repr(C)]
#[derive(Clone, Copy, Debug, PartialEq, Eq)]
pub(crate) struct vd_initialized {
    pub refusal: u32,
    pub port: u32,
    pub used: usize,
    pub pairs: usize,
    pub controller: vd_controller,
}

#[repr(C)]
#[derive(Clone, Copy, Debug, PartialEq, Eq)]
pub(crate) struct vd_handled {
    pub refusal: u32,
    pub lamps: u32,
    pub used: usize,
    pub pairs: usize,
    pub dropped: u32,
    pub port: u32,
}

#[repr(C)]
#[derive(Clone, Copy, Debug, PartialEq, Eq)]
pub(crate) struct vd_taken {
    pub refusal: u32,
    pub side: u32,
    pub keycode: u32,
    pub action: u32,
    pub flags: u32,
}

#[repr(C)]
#[derive(Clone, Copy, Debug, PartialEq, Eq)]
pub(crate) struct vd_step {
    pub refusal: u32,
    pub source: u32,
    pub call: vd_handled,
    pub packet: vd_packet,
}

#[repr(C)]
#[derive(Clone, Copy, Debug, PartialEq, Eq)]
pub(crate) struct vd_request {
    pub kind: u32,
    pub port: u32,
    pub byte: u32,
    pub refusal: u32,
}

#[repr(C)]
#[derive(Clone, Copy, Debug, PartialEq, Eq)]
pub(crate) struct vd_converted {
    pub refusal: u32,
    pub used: usize,
    pub written: usize,
}

#[repr(C)]
#[derive(Clone, Copy, Debug, PartialEq, Eq)]
pub(crate) struct vd_written {
    pub refusal: u32,
    pub written: usize,
}

#[repr(C)]
#[derive(Clone, Copy, Debug, PartialEq, Eq)]
pub(crate) struct vd_salvaged {
    pub refusal: u32,
    pub used: usize,
    pub packet_bytes: usize,
    pub dropped: usize,
}

#[repr(C)]
#[derive(Clone, Copy, Debug, PartialEq, Eq)]
pub(crate) struct vd_preferences {
    pub version: u32,
    pub set: u32,
    pub rate: u32,
    pub resolution: u32,
    pub lamps: u32,
    pub repeat: u32,
}

#[repr(C)]
#[derive(Clone, Copy, Debug, PartialEq, Eq)]
pub(crate) struct vd_preferences_read {
    pub refusal: u32,
    pub preferences: vd_preferences,
}

#[repr(C)]
#[derive(Clone, Copy, Debug, PartialEq, Eq)]
pub(crate) struct vd_preferences_written {
    pub refusal: u32,
    pub written: usize,
}

#[repr(C)]
#[derive(Clone, Copy, Debug, PartialEq, Eq)]
pub(crate) struct vd_report {
    pub presses: [u32; 94],
    pub packets: u32,
    pub x: i32,
    pub y: i32,
}

#[repr(C)]
#[derive(Clone, Copy, Debug, PartialEq, Eq)]
pub(crate) struct vd_report_added {
    pub refusal: u32,
    pub report: vd_report,
}

#[repr(C)]
#[derive(Clone, Copy, Debug, PartialEq, Eq)]
pub(crate) struct vd_long_report {
    pub presses: [u64; 94],
    pub packets: u64,
    pub x: i64,
    pub y: i64,
}

#[repr(C)]
#[derive(Clone, Copy, Debug, PartialEq, Eq)]
pub(crate) struct vd_long_added {
    pub refusal: u32,
    pub report: vd_long_report,
}

#[repr(C)]
#[derive(Clone, Copy, Debug, PartialEq, Eq)]
pub(crate) struct vd_mean {
    pub present: u32,
    pub quotient: i64,
    pub remainder: u64,
}

functions! {
    fn vd_controller_init(controller: vd_controller, script: &[u8], log: &mut [u8]) -> vd_initialized;

    fn vd_keyboard_init(words: &mut [u64], keyboards: u32, profile: u32, script: &[u8], log: &mut [u8]) -> vd_answer;
    fn vd_keyboard_reset(script: &[u8], log: &mut [u8]) -> vd_answer;
    fn vd_keyboard_command(byte: u32, script: &[u8], log: &mut [u8]) -> vd_kept;
    fn vd_keyboard_set_lamps(lamps: u32, script: &[u8], log: &mut [u8]) -> vd_kept;
    fn vd_keyboard_set_scancode_set(set: u32, script: &[u8], log: &mut [u8]) -> vd_answer;
    fn vd_keyboard_get_scancode_set(script: &[u8], log: &mut [u8]) -> vd_answer;
    fn vd_keyboard_detect(script: &[u8], log: &mut [u8]) -> vd_answer;
    fn vd_keyboard_set_repeat(byte: u32, script: &[u8], log: &mut [u8]) -> vd_answer;
    fn vd_keyboard_waits(script: &[u8]) -> vd_answer;
    fn vd_keyboard_read_scancode(script: &[u8]) -> vd_answer;

    fn vd_mouse_reset(script: &[u8], log: &mut [u8]) -> vd_answer;
    fn vd_mouse_start_packets(script: &[u8], log: &mut [u8]) -> vd_answer;
    fn vd_mouse_stop_packets(script: &[u8], log: &mut [u8]) -> vd_answer;
    fn vd_mouse_get_identity(script: &[u8], log: &mut [u8]) -> vd_answer;
    fn vd_mouse_set_identity(identity: u32, script: &[u8], log: &mut [u8]) -> vd_answer;
    fn vd_mouse_command(byte: u32, script: &[u8], log: &mut [u8]) -> vd_kept;
    fn vd_mouse_set_sampling_rate(rate: u32, script: &[u8], log: &mut [u8]) -> vd_answer;
    fn vd_mouse_set_resolution(resolution: u32, script: &[u8], log: &mut [u8]) -> vd_answer;
    fn vd_mouse_waits(script: &[u8]) -> vd_answer;
    fn vd_mouse_read_packet(identity: u32, script: &[u8]) -> vd_packet;

    fn vd_begin(words: &mut [u64], operation: u32, argument: u64) -> vd_request;
    fn vd_next(words: &mut [u64], byte: u32) -> vd_request;
    fn vd_wanted(words: &[u64]) -> vd_request;
    fn vd_step_kept(words: &[u64]) -> vd_kept;

    fn vd_handler_fresh(words: &mut [u64], keyboards: u32, profile: u32) -> u32;
    fn vd_handle(words: &mut [u64], side: u32, script: &[u8], log: &mut [u8]) -> vd_handled;
    fn vd_take(words: &mut [u64]) -> vd_taken;

    fn vd_character(keycode: u32, flags: u32) -> u32;
    fn vd_event_code(keycode: u32, action: u32) -> u32;
    fn vd_convert_set2(stream: &[u8], out: &mut [u8]) -> vd_converted;
    fn vd_type_text(text: &[u8], out: &mut [u8]) -> vd_written;
    fn vd_salvage(identity: u32, bytes: &[u8], packets: &mut [u8], positions: &mut [u64]) -> vd_salvaged;

    fn vd_preferences_write(preferences: vd_preferences, output: &mut [u8]) -> vd_preferences_written;
    fn vd_preferences_read_1(input: &[u8]) -> vd_preferences_read;
    fn vd_preferences_read_2(input: &[u8]) -> vd_preferences_read;
    fn vd_preferences_apply(preferences: vd_preferences, script: &[u8], log: &mut [u8]) -> vd_answer;

    fn vd_report_empty() -> vd_report;
    fn vd_report_add(report: vd_report, identity: u32, events: &[u8], mouse: &[u8]) -> vd_report_added;
    fn vd_report_mean_x(report: vd_report) -> vd_mean;
    fn vd_report_mean_y(report: vd_report) -> vd_mean;
    fn vd_report_widen(report: vd_report) -> vd_long_report;
    fn vd_long_report_empty() -> vd_long_report;
    fn vd_long_report_add(report: vd_long_report, identity: u32, events: &[u8], mouse: &[u8]) -> vd_long_added;
    fn vd_long_report_mean_x(report: vd_long_report) -> vd_mean;
    fn vd_long_report_mean_y(report: vd_long_report) -> vd_mean;

    fn vd_dispatcher_fresh(words: &mut [u64], keyboards: u32, profile: u32, identity: u32) -> u32;
    fn vd_dispatcher_step(words: &mut [u64], first: &[u8], second: &[u8], mouse: &[u8], log: &mut [u8]) -> vd_step;
}
