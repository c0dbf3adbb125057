//! Document 01's refusals: the only list of numbers and words in this crate.
use core::fmt;

macro_rules! refusals {
    ($($number:literal $name:ident $words:literal;)*) => {
        /// Why a call was refused. A refused call has changed nothing. [`core::fmt::Display`] prints document 01's words, those of 10
        /// with what `newest_at` adds.
        ///
        /// ```
        /// use iflughan::Refusal;
        /// assert_eq!(Refusal::EndNotFound.to_string(), "e not found");
        /// assert_eq!(Refusal::EndNotFound.number(), 22);
        /// assert_eq!(Refusal::from_number(22), Some(Refusal::EndNotFound));
        /// assert_eq!(Refusal::from_number(25), None);
        /// ```
        #[derive(Clone, Copy, Debug, PartialEq, Eq, Hash)]
        #[repr(u32)]
        #[non_exhaustive]
        pub enum Refusal {
            $(#[doc = concat!(stringify!($number), ": ", $words)] $name = $number,)*
        }

        impl Refusal {
            /// Every refusal, in the order of the numbers.
            pub const ALL: &'static [Refusal] = &[$(Refusal::$name,)*];

            /// The refusal with this number; none where document 01 has no such number.
            pub fn from_number(number: u32) -> Option<Refusal> {
                match number {
                    $($number => Some(Refusal::$name),)*
                    _ => None,
                }
            }

            /// Document 01's number.
            pub fn number(self) -> u32 {
                self as u32
            }

            /// Document 01's words.
            pub fn words(self) -> &'static str {
                match self {
                    $(Refusal::$name => $words,)*
                }
            }
        }
    };
}

refusals! {
    1 OutsideRules "K, C, M or area length outside the rules";
    2 NotWellShaped "log value not well shaped, or area length not K x C";
    3 PayloadTooLong "payload above 2^30";
    4 LiveEndAtLimit "live end is 2^64 - 1";
    5 SegmentIdAtLimit "new segment wanted, last id is 2^32 - 1";
    6 SlotsTaken "new segment wanted, all K slots listed";
    7 RecordTooLong "padded record above C minus the size (C for a new segment)";
    8 PruneAboveLiveEnd "prune above live end";
    9 PruneBelowLiveStart "prune below live start";
    10 CutNotFound "cut not found: another id at newest_at, short header, length above 2^30, payload past the size, or end of image first";
    11 OneEndZero "exactly one of s, e is 0";
    12 StartAboveEnd "s > e";
    13 ImageRowsWrong "over 64 rows, slot >= K, slot twice, or size > C";
    14 SegmentIdZero "lowest segment id 0";
    15 SegmentIdsApart "neighbours not 1 apart (equal too)";
    16 ImageAfterEmptyOne "image of size above 0 directly after one of size 0";
    17 ShortHeader "short header";
    18 HeaderLengthTooLong "header length above 2^30";
    19 OutOfSequence "record id 0 or out of sequence";
    20 ShortLivePayload "short live payload";
    21 StartNotFound "s not found";
    22 EndNotFound "e not found";
    23 IndexShort "fewer than 4 index words for each live record";
    24 RowOutside "row asked for: slot >= K, or offset + length above C as whole numbers";
    30 EmptyPrefix "empty prefix";
    31 PrefixMissing "prefix missing";
    32 SuffixMissing ".log missing";
    33 DotMissing "dot missing";
    34 NotTenBytes "not 10 bytes";
    35 NotU32 "not a u32";
    36 NameBufferShort "name buffer short";
    40 InputEndsEarly "delta input ends early";
    41 TooManyKeys "over 256 keys";
    42 DuplicateKey "duplicate key";
    43 TableOutside "table over 256 rows or a value outside its slice";
    44 OutputShort "output short";
}

impl fmt::Display for Refusal {
    fn fmt(&self, f: &mut fmt::Formatter<'_>) -> fmt::Result {
        f.write_str(self.words())
    }
}

#[cfg(feature = "std")]
impl std::error::Error for Refusal {}
