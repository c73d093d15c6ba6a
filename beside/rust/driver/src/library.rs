//! The exports of the library (crates/vurdellow), of the small one for tests alone (crates/test_calls) and of the mirror
//! (crates/theseus_calls), with slices in the place of pointers and lengths.

/// All numbers 0.
pub trait Zero {
    fn zero() -> Self;
}

/// Answers and arguments, numbers alone.
macro_rules! words {
    ($($(#[$doc:meta])* $name:ident { $($field:ident: $type:ty),* })*) => {
        $(
            $(#[$doc])*
            #[repr(C)]
            #[derive(Clone, Copy, Debug, PartialEq)]
            pub struct $name {
                $(pub $field: $type),*
            }

            impl Zero for $name {
                fn zero() -> $name {
                    // It has numbers alone.
                    unsafe { std::mem::zeroed() }
                }
            }
        )*
    };
}

pub const KEYS: usize = 94;

words! {
    PortWords { refusal: u32, port: u32, used: usize, pairs: usize, value: u64 }
    KeptWords { refusal: u32, port: u32, used: usize, pairs: usize, count: u32, others: u32, bytes: [u8; 16] }
    PacketWords { refusal: u32, port: u32, used: usize, buttons: u32, x: i32, y: i32, wheel: i32 }
    ControllerWords { initialized: u32, keyboard: u32, mouse: u32 }
    InitializedWords { refusal: u32, port: u32, used: usize, pairs: usize, controller: ControllerWords }
    HandledWords { refusal: u32, lamps: u32, used: usize, pairs: usize, dropped: u32, port: u32 }
    TakenWords { refusal: u32, side: u32, keycode: u32, action: u32, flags: u32 }
    StepWords { refusal: u32, source: u32, call: HandledWords, packet: PacketWords }
    RequestWords { kind: u32, port: u32, byte: u32, refusal: u32 }
    ConvertedWords { refusal: u32, used: usize, written: usize }
    WrittenWords { refusal: u32, written: usize }
    SalvagedWords { refusal: u32, used: usize, packet_bytes: usize, dropped: usize }
    PreferencesWords { version: u32, set: u32, rate: u32, resolution: u32, lamps: u32, repeat: u32 }
    PreferencesReadWords { refusal: u32, preferences: PreferencesWords }
    Report { presses: [u32; KEYS], packets: u32, x: i32, y: i32 }
    ReportAddedWords { refusal: u32, report: Report }
    LongReport { presses: [u64; KEYS], packets: u64, x: i64, y: i64 }
    LongAddedWords { refusal: u32, report: LongReport }
    MeanWords { present: u32, quotient: i64, remainder: u64 }
    ReceivedWords { answer: PortWords, count: u32, others: u32, bytes: [u8; 16] }
    RustPacketWords { packet: PacketWords, always_one: u32 }
}

/// A safe function over an export: a slice goes as its pointer and its length.
macro_rules! export {
    (@ $safe:ident $raw:ident $answer:ty; [$($taken:tt)*] [$($crossing:tt)*] [$($passed:tt)*]) => {
        pub fn $safe($($taken)*) -> $answer {
            extern "C" {
                fn $raw($($crossing)*) -> $answer;
            }
            // The pointers and lengths are those of slices that live as long as the call.
            unsafe { $raw($($passed)*) }
        }
    };
    (@ $safe:ident $raw:ident $answer:ty; [$($t:tt)*] [$($c:tt)*] [$($p:tt)*] $arg:ident: &[$type:ty], $($rest:tt)*) => {
        export! { @ $safe $raw $answer; [$($t)* $arg: &[$type],] [$($c)* $arg: *const $type, _: usize,]
            [$($p)* $arg.as_ptr(), $arg.len(),] $($rest)* }
    };
    (@ $safe:ident $raw:ident $answer:ty; [$($t:tt)*] [$($c:tt)*] [$($p:tt)*] $arg:ident: &mut [$type:ty], $($rest:tt)*) => {
        export! { @ $safe $raw $answer; [$($t)* $arg: &mut [$type],] [$($c)* $arg: *mut $type, _: usize,]
            [$($p)* $arg.as_mut_ptr(), $arg.len(),] $($rest)* }
    };
    (@ $safe:ident $raw:ident $answer:ty; [$($t:tt)*] [$($c:tt)*] [$($p:tt)*] $arg:ident: $type:ty, $($rest:tt)*) => {
        export! { @ $safe $raw $answer; [$($t)* $arg: $type,] [$($c)* $arg: $type,] [$($p)* $arg,] $($rest)* }
    };
}

macro_rules! exports {
    ($(#[$doc:meta])* $names:ident: $($raw:ident $safe:ident ($($args:tt)*) -> $answer:ty;)*) => {
        $(#[$doc])*
        pub const $names: &[&str] = &[$(stringify!($raw)),*];
        $(export! { @ $safe $raw $answer; [] [] [] $($args)* })*
    };
}

/// Handler calls in a row by one of the port's ways to pass a record: the scripts that they have in turn, the log, how many calls, and whether
/// there are two keyboards, the profile is the tournament's, and the side is the second.
pub type InARow = fn(&[u8], &[u8], &mut [u8], usize, bool, bool, bool) -> usize;

/// A handler call, and a taking, on a record that is lent as numbers.
pub type Handling = fn(&mut [u64], u32, &[u8], &mut [u8]) -> HandledWords;
pub type Taking = fn(&mut [u64]) -> TakenWords;

exports! {
    /// The names of all exports of the library.
    NAMES:
    vd_controller_init controller_init(controller: ControllerWords, script: &[u8], log: &mut [u8],) -> InitializedWords;
    vd_keyboard_init keyboard_init(words: &mut [u64], keyboards: u32, profile: u32, script: &[u8], log: &mut [u8],) -> PortWords;
    vd_keyboard_reset keyboard_reset(script: &[u8], log: &mut [u8],) -> PortWords;
    vd_keyboard_command keyboard_command(byte: u32, script: &[u8], log: &mut [u8],) -> KeptWords;
    vd_keyboard_set_lamps keyboard_set_lamps(lamps: u32, script: &[u8], log: &mut [u8],) -> KeptWords;
    vd_keyboard_set_scancode_set keyboard_set_scancode_set(set: u32, script: &[u8], log: &mut [u8],) -> PortWords;
    vd_keyboard_get_scancode_set keyboard_get_scancode_set(script: &[u8], log: &mut [u8],) -> PortWords;
    vd_keyboard_detect keyboard_detect(script: &[u8], log: &mut [u8],) -> PortWords;
    vd_keyboard_set_repeat keyboard_set_repeat(byte: u32, script: &[u8], log: &mut [u8],) -> PortWords;
    vd_keyboard_waits keyboard_waits(script: &[u8],) -> PortWords;
    vd_keyboard_read_scancode keyboard_read_scancode(script: &[u8],) -> PortWords;
    vd_mouse_reset mouse_reset(script: &[u8], log: &mut [u8],) -> PortWords;
    vd_mouse_start_packets mouse_start_packets(script: &[u8], log: &mut [u8],) -> PortWords;
    vd_mouse_stop_packets mouse_stop_packets(script: &[u8], log: &mut [u8],) -> PortWords;
    vd_mouse_get_identity mouse_get_identity(script: &[u8], log: &mut [u8],) -> PortWords;
    vd_mouse_set_identity mouse_set_identity(identity: u32, script: &[u8], log: &mut [u8],) -> PortWords;
    vd_mouse_command mouse_command(byte: u32, script: &[u8], log: &mut [u8],) -> KeptWords;
    vd_mouse_set_sampling_rate mouse_set_sampling_rate(rate: u32, script: &[u8], log: &mut [u8],) -> PortWords;
    vd_mouse_set_resolution mouse_set_resolution(resolution: u32, script: &[u8], log: &mut [u8],) -> PortWords;
    vd_mouse_waits mouse_waits(script: &[u8],) -> PortWords;
    vd_mouse_read_packet mouse_read_packet(identity: u32, script: &[u8],) -> PacketWords;
    vd_begin begin(words: &mut [u64], operation: u32, argument: u64,) -> RequestWords;
    vd_next next(words: &mut [u64], byte: u32,) -> RequestWords;
    vd_wanted wanted(words: &[u64],) -> RequestWords;
    vd_step_kept step_kept(words: &[u64],) -> KeptWords;
    vd_handler_fresh handler_fresh(words: &mut [u64], keyboards: u32, profile: u32,) -> u32;
    vd_handle handle(words: &mut [u64], side: u32, script: &[u8], log: &mut [u8],) -> HandledWords;
    vd_take take(words: &mut [u64],) -> TakenWords;
    vd_character character(keycode: u32, flags: u32,) -> u32;
    vd_event_code event_code(keycode: u32, action: u32,) -> u32;
    vd_convert_set2 convert_set2(stream: &[u8], out: &mut [u8],) -> ConvertedWords;
    vd_type_text type_text(text: &[u8], out: &mut [u8],) -> WrittenWords;
    vd_salvage salvage(identity: u32, bytes: &[u8], packets: &mut [u8], positions: &mut [u64],) -> SalvagedWords;
    vd_preferences_write preferences_write(preferences: PreferencesWords, out: &mut [u8],) -> WrittenWords;
    vd_preferences_read_1 preferences_read_1(input: &[u8],) -> PreferencesReadWords;
    vd_preferences_read_2 preferences_read_2(input: &[u8],) -> PreferencesReadWords;
    vd_preferences_apply preferences_apply(preferences: PreferencesWords, script: &[u8], log: &mut [u8],) -> PortWords;
    vd_report_empty report_empty() -> Report;
    vd_report_add report_add(report: Report, identity: u32, events: &[u8], mouse: &[u8],) -> ReportAddedWords;
    vd_report_mean_x report_mean_x(report: Report,) -> MeanWords;
    vd_report_mean_y report_mean_y(report: Report,) -> MeanWords;
    vd_report_widen report_widen(report: Report,) -> LongReport;
    vd_long_report_empty long_report_empty() -> LongReport;
    vd_long_report_add long_report_add(report: LongReport, identity: u32, events: &[u8], mouse: &[u8],) -> LongAddedWords;
    vd_long_report_mean_x long_report_mean_x(report: LongReport,) -> MeanWords;
    vd_long_report_mean_y long_report_mean_y(report: LongReport,) -> MeanWords;
    vd_dispatcher_fresh dispatcher_fresh(words: &mut [u64], keyboards: u32, profile: u32, identity: u32,) -> u32;
    vd_dispatcher_step dispatcher_step(words: &mut [u64], first: &[u8], second: &[u8], mouse: &[u8], log: &mut [u8],) -> StepWords;
}

exports! {
    /// The names of the exports for tests alone.
    TEST_NAMES:
    vdt_controller_test controller_test(script: &[u8], log: &mut [u8],) -> PortWords;
    vdt_port1_test port1_test(script: &[u8], log: &mut [u8],) -> PortWords;
    vdt_port2_test port2_test(script: &[u8], log: &mut [u8],) -> PortWords;
    vdt_configuration_read configuration_read(script: &[u8], log: &mut [u8],) -> PortWords;
    vdt_configuration_write configuration_write(configuration: u8, log: &mut [u8],) -> PortWords;
    vdt_polling_send polling_send(set: u32, script: &[u8], log: &mut [u8],) -> PortWords;
    vdt_polling_receive polling_receive(script: &[u8],) -> ReceivedWords;
    vdt_keyboard_data_set keyboard_data_set(set: u32, script: &[u8], log: &mut [u8],) -> KeptWords;
    vdt_keyboard_data_lamps keyboard_data_lamps(lamps: u32, script: &[u8], log: &mut [u8],) -> KeptWords;
    vdt_keyboard_set_scancode_set keyboard_set_any_set(set: u32, script: &[u8], log: &mut [u8],) -> PortWords;
    vdt_mouse_data_rate mouse_data_rate(rate: u32, script: &[u8], log: &mut [u8],) -> KeptWords;
    vdt_mouse_data_resolution mouse_data_resolution(resolution: u32, script: &[u8], log: &mut [u8],) -> KeptWords;
    vdt_mouse_read_packet mouse_read_rust_packet(identity: u32, script: &[u8],) -> RustPacketWords;
    vdt_handle_by_value handle_by_value(words: &mut [u64], side: u32, script: &[u8], log: &mut [u8],) -> HandledWords;
    vdt_handle_in_place handle_in_place(words: &mut [u64], side: u32, script: &[u8], log: &mut [u8],) -> HandledWords;
    vdt_take_by_value take_by_value(words: &mut [u64],) -> TakenWords;
    vdt_handler_calls_by_value handler_calls_by_value(script: &[u8], other: &[u8], log: &mut [u8], times: usize, two: bool, tournament: bool, second: bool,) -> usize;
    vdt_handler_calls_in_place handler_calls_in_place(script: &[u8], other: &[u8], log: &mut [u8], times: usize, two: bool, tournament: bool, second: bool,) -> usize;
    vdt_handler_calls_on_state handler_calls_on_state(script: &[u8], other: &[u8], log: &mut [u8], times: usize, two: bool, tournament: bool, second: bool,) -> usize;
    vdt_dispatcher_steps dispatcher_steps(first: &[u8], second: &[u8], mouse: &[u8], log: &mut [u8], times: usize,) -> usize;
}

words! {
    NotedWords { answer: PortWords, count: u32, others: u32, bytes: [u8; 16] }
    InitializedNotedWords { run: NotedWords, controller: ControllerWords }
    PacketFields { buttons: u32, always_one: u32, x: i32, y: i32, wheel: i32 }
    PacketNotedWords { run: NotedWords, packet: PacketFields }
    EventWords { keycode: u32, released: u32, flags: u32 }
    InterruptWords { run: NotedWords, prefix: u32, flags: u32, count: usize, event: EventWords }
}

/// The exports of the mirror (crates/theseus_calls).
pub mod rusts {
    use super::*;

    exports! {
        /// Their names.
        NAMES:
        vdr_controller_init controller_init(controller: ControllerWords, script: &[u8], log: &mut [u8],) -> InitializedNotedWords;
        vdr_controller_test controller_test(script: &[u8], log: &mut [u8],) -> NotedWords;
        vdr_port1_test port1_test(script: &[u8], log: &mut [u8],) -> NotedWords;
        vdr_port2_test port2_test(script: &[u8], log: &mut [u8],) -> NotedWords;
        vdr_configuration_read configuration_read(script: &[u8], log: &mut [u8],) -> NotedWords;
        vdr_configuration_write configuration_write(configuration: u8, script: &[u8], log: &mut [u8],) -> NotedWords;
        vdr_polling_send polling_send(set: u32, script: &[u8], log: &mut [u8],) -> NotedWords;
        vdr_polling_receive polling_receive(script: &[u8], log: &mut [u8],) -> NotedWords;
        vdr_keyboard_reset keyboard_reset(script: &[u8], log: &mut [u8],) -> NotedWords;
        vdr_keyboard_command keyboard_command(byte: u32, script: &[u8], log: &mut [u8],) -> NotedWords;
        vdr_keyboard_data_set keyboard_data_set(set: u32, script: &[u8], log: &mut [u8],) -> NotedWords;
        vdr_keyboard_data_lamps keyboard_data_lamps(lamps: u32, script: &[u8], log: &mut [u8],) -> NotedWords;
        vdr_keyboard_lamps keyboard_lamps(lamps: u32, script: &[u8], log: &mut [u8],) -> NotedWords;
        vdr_keyboard_set_scancode_set keyboard_set_scancode_set(set: u32, script: &[u8], log: &mut [u8],) -> NotedWords;
        vdr_keyboard_scancode_set keyboard_scancode_set(script: &[u8], log: &mut [u8],) -> NotedWords;
        vdr_keyboard_detect keyboard_detect(script: &[u8], log: &mut [u8],) -> NotedWords;
        vdr_keyboard_waits keyboard_waits(script: &[u8], log: &mut [u8],) -> NotedWords;
        vdr_keyboard_read_scancode keyboard_read_scancode(script: &[u8], log: &mut [u8],) -> NotedWords;
        vdr_keyboard_init keyboard_init(script: &[u8], log: &mut [u8],) -> NotedWords;
        vdr_mouse_reset mouse_reset(script: &[u8], log: &mut [u8],) -> NotedWords;
        vdr_mouse_start_packets mouse_start_packets(script: &[u8], log: &mut [u8],) -> NotedWords;
        vdr_mouse_stop_packets mouse_stop_packets(script: &[u8], log: &mut [u8],) -> NotedWords;
        vdr_mouse_identity mouse_identity(script: &[u8], log: &mut [u8],) -> NotedWords;
        vdr_mouse_set_identity mouse_set_identity(identity: u32, script: &[u8], log: &mut [u8],) -> NotedWords;
        vdr_mouse_command mouse_command(byte: u32, script: &[u8], log: &mut [u8],) -> NotedWords;
        vdr_mouse_data_rate mouse_data_rate(rate: u32, script: &[u8], log: &mut [u8],) -> NotedWords;
        vdr_mouse_data_resolution mouse_data_resolution(resolution: u32, script: &[u8], log: &mut [u8],) -> NotedWords;
        vdr_mouse_sampling_rate mouse_sampling_rate(rate: u32, script: &[u8], log: &mut [u8],) -> NotedWords;
        vdr_mouse_resolution mouse_resolution(resolution: u32, script: &[u8], log: &mut [u8],) -> NotedWords;
        vdr_mouse_waits mouse_waits(script: &[u8], log: &mut [u8],) -> NotedWords;
        vdr_mouse_read_packet mouse_read_packet(identity: u32, script: &[u8], log: &mut [u8],) -> PacketNotedWords;
        vdr_interrupt interrupt(prefix: bool, flags: u16, waiting: usize, script: &[u8], log: &mut [u8],) -> InterruptWords;
        vdr_character character(keycode: u8, flags: u16,) -> u32;
    }
}
