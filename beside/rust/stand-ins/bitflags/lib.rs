//! Stand-in for `bitflags!`: a set of flags is an integer, and a flag is the value that the source gives it.
#![no_std]

#[macro_export]
macro_rules! bitflags {
    ($(#[$attr:meta])* $vis:vis struct $Name:ident: $Bits:ty { $(const $FLAG:ident = $value:expr;)* }) => {
        $(#[$attr])*
        $vis struct $Name($Bits);

        #[allow(dead_code)]
        impl $Name {
            $(pub const $FLAG: Self = Self($value);)*

            pub const fn empty() -> Self { Self(0) }
            pub const fn bits(&self) -> $Bits { self.0 }
            pub const fn intersects(&self, other: Self) -> bool { self.0 & other.0 != 0 }
            pub fn insert(&mut self, other: Self) { self.0 |= other.0 }
            pub fn remove(&mut self, other: Self) { self.0 &= !other.0 }
            pub fn toggle(&mut self, other: Self) { self.0 ^= other.0 }
        }

        impl ::core::ops::BitOr for $Name {
            type Output = Self;
            fn bitor(self, other: Self) -> Self { Self(self.0 | other.0) }
        }
    };
}
