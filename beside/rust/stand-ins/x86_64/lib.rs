//! Stand-in for `x86_64`: what the processor pushes before it enters an interrupt handler.
#![no_std]

pub mod structures {
    pub mod idt {
        #[repr(C)]
        pub struct InterruptStackFrame {
            pub instruction_pointer: u64,
            pub code_segment: u64,
            pub cpu_flags: u64,
            pub stack_pointer: u64,
            pub stack_segment: u64,
        }
    }
}
