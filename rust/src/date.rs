//! Dates as three numbers. Whether they make a date is for the library to say, by a refusal where they do not.

use std::error::Error;
use std::fmt;
use std::str::FromStr;

/// A year, a month and a day, which need not make a date.
#[derive(Clone, Copy, Debug, PartialEq, Eq, Hash, PartialOrd, Ord)]
#[repr(C)]
pub struct Date {
    /// 1990 to 2099 in a date.
    pub year: u32,
    /// From 1 on.
    pub month: u32,
    /// From 1 on.
    pub day: u32,
}

impl Date {
    /// The three numbers as they are.
    pub const fn new(year: u32, month: u32, day: u32) -> Date {
        Date { year, month, day }
    }
}

impl fmt::Display for Date {
    fn fmt(&self, f: &mut fmt::Formatter<'_>) -> fmt::Result {
        write!(f, "{:04}-{:02}-{:02}", self.year, self.month, self.day)
    }
}

/// A text that is not ten characters written as `yyyy-mm-dd`.
#[derive(Clone, Copy, Debug, PartialEq, Eq)]
pub struct NotWrittenAsDate;

impl fmt::Display for NotWrittenAsDate {
    fn fmt(&self, f: &mut fmt::Formatter<'_>) -> fmt::Result {
        f.write_str("a date is written yyyy-mm-dd")
    }
}

impl Error for NotWrittenAsDate {}

impl FromStr for Date {
    type Err = NotWrittenAsDate;

    fn from_str(text: &str) -> Result<Date, NotWrittenAsDate> {
        let b = text.as_bytes();
        if b.len() != 10 || b[4] != b'-' || b[7] != b'-' {
            return Err(NotWrittenAsDate);
        }
        Ok(Date::new(decimal(&b[..4])?, decimal(&b[5..7])?, decimal(&b[8..])?))
    }
}

fn decimal(digits: &[u8]) -> Result<u32, NotWrittenAsDate> {
    digits.iter().try_fold(0, |n, b| if b.is_ascii_digit() { Ok(10 * n + u32::from(b - b'0')) } else { Err(NotWrittenAsDate) })
}
