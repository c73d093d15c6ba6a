//! Stand-in for `modular_bitfield`: the first field of a struct has the lowest bits of the first byte, and each
//! further field the bits above. This decides every bit layout of `ps2`.
#![no_std]

pub use modular_bitfield_macros::{bitfield, BitfieldSpecifier};

/// A type that a field may have: its number of bits, and the value that its getter gives.
pub trait Specifier {
    const BITS: usize;
    type Value;
    fn from_bits(bits: u64) -> Self::Value;
    fn into_bits(value: Self::Value) -> u64;
}

impl Specifier for bool {
    const BITS: usize = 1;
    type Value = bool;
    fn from_bits(bits: u64) -> bool {
        bits != 0
    }
    fn into_bits(value: bool) -> u64 {
        value as u64
    }
}

macro_rules! numbers {
    ($($T:ty: $bits:expr),*) => { $(
        impl Specifier for $T {
            const BITS: usize = $bits;
            type Value = u8;
            fn from_bits(bits: u64) -> u8 {
                bits as u8
            }
            fn into_bits(value: u8) -> u64 {
                assert!((value as u64) >> $bits == 0);
                value as u64
            }
        }
    )* };
}

numbers!(u8: 8, specifiers::B1: 1, specifiers::B4: 4, specifiers::B8: 8);

pub mod specifiers {
    pub enum B1 {}
    pub enum B4 {}
    pub enum B8 {}
}
