//! Stand-in for `interrupts`: keeps the registered handler and enters it as the processor would.
#![no_std]
#![feature(abi_x86_interrupt)]

use core::arch::asm;
use core::cell::Cell;
use x86_64::structures::idt::InterruptStackFrame;

pub const IRQ_BASE_OFFSET: u8 = 0x20;

pub type Handler = extern "x86-interrupt" fn(InterruptStackFrame);

struct Registered(Cell<Option<Handler>>);

// One thread runs the Rust.
unsafe impl Sync for Registered {}

static HANDLER: Registered = Registered(Cell::new(None));

/// There is one interrupt here, the keyboard's. The error is the handler that is there already.
pub fn register_interrupt(_irq: u8, handler: Handler) -> Result<(), u64> {
    match HANDLER.0.get() {
        Some(other) => Err(other as usize as u64),
        None => {
            HANDLER.0.set(Some(handler));
            Ok(())
        }
    }
}

pub fn eoi(_irq: u8) {}

/// Ours: as if no handler had been registered.
pub fn forget() {
    HANDLER.0.set(None);
}

/// Ours: the registered handler is entered.
pub fn raise() {
    enter(HANDLER.0.get().expect("no handler is registered"));
}

/// Ours: a handler that does nothing is registered, to know what entering one costs. Gives the one that was.
pub fn register_nothing() -> Option<Handler> {
    extern "x86-interrupt" fn nothing(_: InterruptStackFrame) {}
    HANDLER.0.replace(Some(nothing))
}

/// Ours: a handler that `register_nothing` gave is registered again.
pub fn register_again(handler: Option<Handler>) {
    HANDLER.0.set(handler);
}

/// The compiler refuses to call such a function, so this does what the processor does: it aligns the stack, pushes
/// the frame and jumps. The handler's `iretq` takes the frame off again; it gives every other register back itself.
#[inline(never)]
fn enter(handler: Handler) {
    unsafe {
        asm!(
            "mov {sp}, rsp",
            "and rsp, -16",
            "mov {t:e}, ss",
            "push {t}",
            "push {sp}",
            "pushfq",
            "mov {t:e}, cs",
            "push {t}",
            "lea {t}, [rip + 2f]",
            "push {t}",
            "jmp {h}",
            "2:",
            sp = out(reg) _,
            t = out(reg) _,
            h = in(reg) handler as usize,
        );
    }
}
