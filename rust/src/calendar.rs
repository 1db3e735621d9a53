//! Calendars: 512 days as the bits of 64 bytes, and their written forms.

use crate::library;
use crate::{Date, Refusal};
use std::fmt;

/// Bytes of a calendar.
pub const CALENDAR_LENGTH: usize = 64;
/// Days of a calendar and of a register's window.
pub const WINDOW_DAYS: usize = 512;
/// Bytes that hold any written form: `POP+273:`, two dates and what parts them, `::`, a character for each day, `'`.
const WRITTEN_LENGTH: usize = 8 + 21 + 2 + WINDOW_DAYS + 1;

/// How much of a day string is written.
#[derive(Clone, Copy, PartialEq, Eq, Debug)]
pub enum DayString {
    /// A character for each day.
    Full,
    /// The characters up to the last running day, or a single 0 where there is none.
    Short,
}

/// The days of a calendar, counted from its first date, which it does not hold: bit k % 8, from the lowest, of byte k / 8 is day k.
#[derive(Clone, Copy, PartialEq, Eq, Hash)]
pub struct Calendar {
    bytes: [u8; CALENDAR_LENGTH],
}

impl Calendar {
    /// A calendar with no day.
    pub const fn new() -> Calendar {
        Calendar { bytes: [0; CALENDAR_LENGTH] }
    }

    /// The calendar that these bytes are.
    pub const fn from_bytes(bytes: [u8; CALENDAR_LENGTH]) -> Calendar {
        Calendar { bytes }
    }

    /// Its bytes.
    pub const fn as_bytes(&self) -> &[u8; CALENDAR_LENGTH] {
        &self.bytes
    }

    /// Its bytes, to be changed.
    pub(crate) fn bytes_mut(&mut self) -> &mut [u8; CALENDAR_LENGTH] {
        &mut self.bytes
    }

    /// Whether day k is selected; none is from 512 on.
    pub fn has(&self, k: usize) -> bool {
        k < WINDOW_DAYS && self.bytes[k / 8] >> (k % 8) & 1 == 1
    }

    /// Selects day k, and says whether there is such a day.
    pub fn select(&mut self, k: usize) -> bool {
        if let Some(byte) = self.bytes.get_mut(k / 8) {
            *byte |= 1 << (k % 8);
        }
        k < WINDOW_DAYS
    }

    /// The selected days, rising.
    pub fn days(&self) -> impl Iterator<Item = usize> + '_ {
        (0..WINDOW_DAYS).filter(move |&k| self.has(k))
    }

    /// How many days are selected.
    pub fn count(&self) -> usize {
        self.days().count()
    }

    /// The calendar from `first` to `last` as a whole POP segment with a day string, in full or short. 19.
    pub fn write_day_string(&self, first: Date, last: Date, form: DayString) -> Result<String, Refusal> {
        library::written(WRITTEN_LENGTH, |out| library::write_day_string(&self.bytes, first, last, form == DayString::Short, out))
    }

    /// The calendar from `first` to `last` as a whole POP segment with weekdays. 19, 20.
    pub fn write_weekdays(&self, first: Date, last: Date) -> Result<String, Refusal> {
        library::written(WRITTEN_LENGTH, |out| library::write_weekdays(&self.bytes, first, last, out))
    }
}

impl Default for Calendar {
    fn default() -> Calendar {
        Calendar::new()
    }
}

/// 512 characters of 0 and 1, as a register shows them.
impl fmt::Display for Calendar {
    fn fmt(&self, f: &mut fmt::Formatter<'_>) -> fmt::Result {
        (0..WINDOW_DAYS).try_for_each(|k| f.write_str(if self.has(k) { "1" } else { "0" }))
    }
}

impl fmt::Debug for Calendar {
    fn fmt(&self, f: &mut fmt::Formatter<'_>) -> fmt::Result {
        write!(f, "Calendar({self})")
    }
}
