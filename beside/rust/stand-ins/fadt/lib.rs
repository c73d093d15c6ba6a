//! Stand-in for `fadt`: there is no such table. In the Rust it decides about a warning alone.
#![no_std]

use acpi::AcpiTables;

pub struct Header {
    pub revision: u8,
}

pub struct Fadt {
    pub header: Header,
    pub iapc_boot_architecture_flags: u16,
}

impl Fadt {
    pub fn get(_: &AcpiTables) -> Option<&Fadt> {
        None
    }
}
