//! The refusals of document 01, by their numbers.

use core::error::Error;
use core::fmt;

/// Makes the enum and its conversions from one table, a row a refusal: the number, the name, the document's words.
macro_rules! refusals {
    ($($number:literal $name:ident $words:literal,)*) => {
        /// Why a call refused. It then has changed nothing.
        #[derive(Clone, Copy, Debug, PartialEq, Eq, Hash)]
        pub enum Refusal {
            $(#[doc = concat!(stringify!($number), ": ", $words, ".")] $name = $number,)*
        }

        impl Refusal {
            /// The refusal of this number, or none where document 01 has no such number.
            ///
            /// ```
            /// use ronakvesh::Refusal;
            ///
            /// assert_eq!(Refusal::from_number(14), Some(Refusal::MappedAlready));
            /// assert_eq!(Refusal::from_number(0), None);
            /// assert_eq!(Refusal::from_number(19), None);
            /// ```
            pub const fn from_number(number: u64) -> Option<Refusal> {
                match number {
                    $($number => Some(Refusal::$name),)*
                    _ => None,
                }
            }

            /// When document 01 gives this refusal, in its words.
            const fn words(self) -> &'static str {
                match self {
                    $(Refusal::$name => $words,)*
                }
            }
        }
    };
}

refusals! {
    1 Sizes "T is not 1 to 512, F is not 1 to 4,096, or a slice length isn't exactly theirs",
    2 NotWellFormed "not well formed",
    3 NoRoot "a named root isn't a root",
    4 SameRoot "child root equals parent",
    5 LongSource "`uvm_init` source of 4,096 bytes or more",
    6 TooHigh "a page or byte asked for is at or above 2^38, or a size exceeds 2^38, or the result of an address helper leaves 64 bits or its level is above 2",
    7 NotAligned "`uvm_unmap` va, or `uvm_copy` size, not a multiple of 4,096",
    8 Permissions "permissions above 1023",
    9 FrameTooHigh "a frame to be mapped lies at or above 2^56",
    10 HeldWindow "`map` names a frame in the held window, or an unmap without freeing meets a pool frame",
    11 NotMapped "a page needed is not mapped",
    12 NotUser "a page needed lacks U",
    13 OnlyValid "unmap meets flags exactly 1",
    14 MappedAlready "a target page is mapped already",
    15 NoPoolFrame "a page needed has no pool frame",
    16 TooFewFrames "more frames needed than free",
    17 TooFewTables "more tables needed than free",
    18 PageLeft "tree freed while a page is mapped",
}

impl Refusal {
    /// The number that document 01 gives this refusal.
    ///
    /// ```
    /// assert_eq!(ronakvesh::Refusal::TooFewTables.number(), 17);
    /// ```
    pub const fn number(self) -> u64 {
        self as u64
    }
}

/// The document's words.
impl fmt::Display for Refusal {
    fn fmt(&self, f: &mut fmt::Formatter<'_>) -> fmt::Result {
        f.write_str(self.words())
    }
}

impl Error for Refusal {}
