// `bitflags!`: a number with named bits. Unknown bits are kept, as `from_bits_retain` promises.

macro_rules! bitflags {
    ($(#[$attribute:meta])* pub struct $name:ident: $number:ty { $(const $flag:ident = $bits:expr;)* }) => {
        $(#[$attribute])*
        pub struct $name($number);

        impl $name {
            $(pub const $flag: Self = Self($bits);)*

            pub const fn bits(&self) -> $number {
                self.0
            }

            pub const fn from_bits_retain(bits: $number) -> Self {
                Self(bits)
            }
        }

        impl core::ops::BitOr for $name {
            type Output = Self;

            fn bitor(self, other: Self) -> Self {
                Self(self.0 | other.0)
            }
        }
    };
}
