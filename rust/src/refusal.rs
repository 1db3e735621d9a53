//! Refusals: the paper's numbers by name, and the parts of a POP.

use std::error::Error;
use std::fmt;

// A table: what stands in it, from 1 on and in order, by name and in words.
macro_rules! table {
    ($about:literal $table:ident: $($name:ident = $number:literal, $words:literal;)*) => {
        #[doc = $about]
        #[derive(Clone, Copy, Debug, PartialEq, Eq, Hash, PartialOrd, Ord)]
        #[repr(u8)]
        pub enum $table {
            $(#[doc = $words] $name = $number,)*
        }

        impl $table {
            /// All of them, in order.
            pub const ALL: &'static [$table] = &[$($table::$name),*];

            /// The one of this value, if there is one.
            pub fn of(number: u8) -> Option<$table> {
                $table::ALL.get(usize::from(number).checked_sub(1)?).copied()
            }

            /// What it means, in words.
            pub fn words(self) -> &'static str {
                match self {
                    $($table::$name => $words,)*
                }
            }
        }

        impl fmt::Display for $table {
            fn fmt(&self, f: &mut fmt::Formatter<'_>) -> fmt::Result {
                f.write_str(self.words())
            }
        }
    };
}

table! {
    "A number of the paper's table other than 0; `as u8` is the number itself. docs/NUMBERS.md has an example of each."
    Number:
    NotARegister = 1, "the buffer is not a register";
    BadAccount = 2, "the account is not 1 to 8";
    BadSize = 3, "the interchange is empty or over 60,000 bytes";
    ByteNotPermitted = 4, "this byte is not permitted";
    InputEnds = 5, "the input ends inside this segment";
    WrongSegment = 6, "the segment's tag is wrong, or it is over a limit";
    WrongEnvelope = 7, "the envelope is wrong: its order, contents or counts, or bytes after UIZ";
    UnknownType = 8, "this UIH's type or directory is not known";
    OutOfPlace = 9, "the segment is out of place";
    WrongPeriod = 10, "the contents of this POP are wrong";
    WrongService = 11, "the number of this PRD's service is wrong, or a POP is missing or present wrongly";
    NumberTwice = 12, "the number of this PRD's service is twice in the interchange";
    OutsideWindow = 13, "the period of this POP is not wholly in the window";
    UnknownService = 14, "this PRD removes a service that is not known";
    OverQuota = 15, "more records at the end than the account's quota";
    NothingThere = 16, "nothing is pending to withdraw, or there is no such record";
    OutputTooShort = 17, "the lent output is too short";
    BadOpening = 18, "the quotas' sum is over 256, the first date is none, or the window is outside the dates";
    BadCalendar = 19, "the calendar to write has bad dates, a bad length or a day past its last";
    NoWeekdayForm = 20, "the calendar has no weekday form";
    SegmentTooLong = 21, "the segment is over 4,096 bytes, which is too long in parcels";
}

table! {
    "Which part of a POP is wrong, beside 10; the lowest that applies. `as u8` is its number."
    Part:
    Dates = 1, "the dates are wrong";
    DayString = 2, "the day string is wrong";
    Weekdays = 3, "the weekdays are wrong";
    BothForms = 4, "both a day string and weekdays are given";
    NeitherForm = 5, "neither a day string nor weekdays are given";
    Otherwise = 6, "the qualifier is wrong, or an element is repeated";
}

/// What the library refused, and where: an offset in the interchange, or 0.
#[derive(Clone, Copy, Debug, PartialEq, Eq, Hash)]
pub struct Refusal {
    /// Why.
    pub number: Number,
    /// Where.
    pub position: usize,
    /// Which part of the POP is wrong; none beside every number but 10.
    pub part: Option<Part>,
}

impl fmt::Display for Refusal {
    fn fmt(&self, f: &mut fmt::Formatter<'_>) -> fmt::Result {
        write!(f, "refused, number {} at {}: {}", self.number as u8, self.position, self.number)?;
        self.part.map_or(Ok(()), |part| write!(f, ": {part}"))
    }
}

impl Error for Refusal {}
