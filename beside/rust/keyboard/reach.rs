//! What the driver needs of `keyboard` and can't reach from outside. Nothing here decides anything.

use super::*;

#[path = "../unchanged.rs"]
mod unchanged;

const _: () = assert!(unchanged::unchanged(
    include_bytes!("../target/theseus/keyboard.rs"),
    include_bytes!("../../../docs/src/src--kernel--keyboard--src--lib.rs.txt"),
    b"#[path = \"../../keyboard/reach.rs\"] pub mod reach;\n",
));

/// As if `init` had not been called.
pub fn forget() {
    KEYBOARD.reset();
    interrupts::forget();
}

/// The flags, to be read or set.
pub fn modifiers() -> &'static mut KeyboardModifiers {
    unsafe { &mut KBD_MODIFIERS }
}

/// What the interrupt handler does with a scancode that is no prefix, called without an interrupt frame.
pub fn handle_directly() {
    if let Some(KeyboardInterruptParams { keyboard, queue }) = KEYBOARD.get() {
        let scan_code = keyboard.read_scancode();
        let _ = handle_keyboard_input(keyboard, queue, scan_code, false);
    }
}

/// What the interrupt handler does with E0 and with the scancode behind it, called without an interrupt frame.
pub fn handle_prefixed() {
    if let Some(KeyboardInterruptParams { keyboard, queue }) = KEYBOARD.get() {
        if keyboard.read_scancode() == 0xE0 {
            let scan_code = keyboard.read_scancode();
            let _ = handle_keyboard_input(keyboard, queue, scan_code, true);
        }
    }
}
