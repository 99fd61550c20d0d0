use core::fmt;

/// Why a call refused: a number, and a sentence for it. A refused call has changed nothing.
///
/// ```
/// use ahozurime::{frame, Refusal};
///
/// let refusal = frame::read(&[0; 13]).unwrap_err();
/// assert_eq!(refusal, Refusal::FRAME_SHORT);
/// assert_eq!(refusal.number(), 1);
/// let said = "refusal 1: frame under 14 octets, or under 18 with its check";
/// assert_eq!(refusal.to_string(), said);
/// ```
#[derive(Clone, Copy, PartialEq, Eq, PartialOrd, Ord, Hash)]
pub struct Refusal(u8);

/// Each refusal's name and sentence once, in the order of the numbers. The sentences are the header's.
macro_rules! refusals {
    ($($number:literal $name:ident $sentence:literal)*) => {
        impl Refusal {
            $(
                #[doc = concat!("Refusal ", $number, ": ", $sentence, ".")]
                pub const $name: Refusal = Refusal($number);
            )*

            /// The refusal in words. A number that is none of the layer's has a sentence too, which
            /// says so.
            #[must_use]
            pub const fn sentence(self) -> &'static str {
                match self.0 {
                    $($number => $sentence,)*
                    _ => "no refusal",
                }
            }
        }
    };
}

refusals! {
    1 FRAME_SHORT "frame under 14 octets, or under 18 with its check"
    2 FRAME_LONG "frame over 1,522 octets, or over 1,526 with its check"
    3 TAG_CUT "octets end before the type after a tag"
    4 TAG_TWICE "8100 after a C-TAG, or 8100, F1C1 or 892F after an R-TAG or an HSR tag"
    5 VLAN "VLAN id 4,095"
    6 TAG_THERE "insertion into a frame with an R-TAG or an HSR tag"
    7 RESULT_LONG "result over 1,522 octets"
    8 OUTPUT_SHORT "output shorter than the result"
    9 NO_TAG "removal from a frame without a number in the stream's encoding"
    10 ENTRY_KIND "table entry of no known kind"
    11 ENTRY_CUT "octets end inside a table entry"
    12 ENTRY_RANGE "choice, VLAN, DSCP or next protocol of a table entry out of range"
    13 ENTRY_257 "257th table entry"
    14 STATE "no state of this format, or one that is not sound"
    15 RULE "rule not 0 or 1"
    16 HISTORY "history length not 2 to 512"
    17 MILLISECONDS "timeout not 1 to 3,600,000 ms"
    18 RATE "ticks per second not 1 to 10,000"
    19 PATHS "paths not 2 to 8"
    20 CARD_KIND "card of no known kind"
    21 CARD_CUT "octets end inside a card"
    22 CALIBRATION "not 0 < gain <= 1, or not -100 <= offset <= 100"
    23 EVENT_KIND "tape event of no known kind"
    24 EVENT_CUT "octets end inside a tape event"
    25 TAPE_SETUP "setup missing or repeated on a tape"
    26 TAPE_LONG "tape over 4,096 octets"
    27 TAKEN_OR_USE "taken flag or use not 0 or 1"
    28 FCS "frame check sequence does not match"
    37 PATH_ID "path or LAN id over 15"
}

impl Refusal {
    /// The refusal of a number, as it was stored or as a line of a tape has it. Any number has one.
    #[must_use]
    #[inline]
    pub const fn from_number(number: u8) -> Refusal {
        Refusal(number)
    }

    /// The refusal's number.
    #[must_use]
    #[inline]
    pub const fn number(self) -> u8 {
        self.0
    }
}

impl fmt::Display for Refusal {
    fn fmt(&self, f: &mut fmt::Formatter) -> fmt::Result {
        write!(f, "refusal {}: {}", self.0, self.sentence())
    }
}

/// With the sentence, since this is what an `unwrap` and a `main` print.
impl fmt::Debug for Refusal {
    fn fmt(&self, f: &mut fmt::Formatter) -> fmt::Result {
        f.debug_tuple("Refusal").field(&self.0).field(&self.sentence()).finish()
    }
}

impl core::error::Error for Refusal {}
