//! The reading of an interchange: its rows, and its services one by one.

use crate::library;
use crate::{Calendar, Date, Refusal};

/// The greatest length of an interchange, in bytes.
pub const INTERCHANGE_LENGTH: usize = 60_000;
/// Numbers that hold the rows of any interchange, three each.
const ROW_NUMBERS: usize = 45_000;

/// What a POP with neither form means: it is refused, 10 part 5; or, in the old reading, every day runs.
#[derive(Clone, Copy, PartialEq, Eq, Debug)]
pub enum NeitherForm {
    /// A POP with no day string and no weekdays is refused.
    Refused,
    /// Every day of its period runs.
    EveryDay,
}

impl NeitherForm {
    /// Whether the old reading is asked for.
    pub(crate) fn is_old_reading(self) -> bool {
        self == NeitherForm::EveryDay
    }
}

/// An interchange that was accepted, with its rows. It keeps what a POP with neither form means.
#[derive(Clone, Debug)]
pub struct Reading<'a> {
    interchange: &'a [u8],
    rows: Vec<u32>,
    neither: NeitherForm,
}

/// Reads an interchange. 3 to 10.
pub fn read(interchange: &[u8], neither: NeitherForm) -> Result<Reading<'_>, Refusal> {
    let mut rows = vec![0; ROW_NUMBERS];
    let count = library::read(interchange, neither.is_old_reading(), &mut rows)?;
    rows.truncate(3 * count);
    Ok(Reading { interchange, rows, neither })
}

/// A segment, as the reader placed it.
#[derive(Clone, Copy, Debug, PartialEq, Eq)]
pub struct Row {
    /// Where it begins in the interchange.
    pub offset: usize,
    /// Its group's number, 0 for none.
    pub group: u32,
    /// Its tag.
    pub tag: [u8; 3],
}

/// The rows that these numbers are, three each.
pub(crate) fn rows_of(numbers: &[u32]) -> impl Iterator<Item = Row> + '_ {
    numbers.chunks_exact(3).map(|row| {
        let [_, a, b, c] = row[2].to_be_bytes();
        Row { offset: row[0] as usize, group: row[1], tag: [a, b, c] }
    })
}

impl<'a> Reading<'a> {
    /// The interchange that was read.
    pub fn interchange(&self) -> &'a [u8] {
        self.interchange
    }

    /// The rows, a segment each, in order.
    pub fn rows(&self) -> impl Iterator<Item = Row> + '_ {
        rows_of(&self.rows)
    }

    /// The services, the groups 2 of SKDUPD messages, in order.
    pub fn services(&self) -> Services<'_> {
        Services { reading: self, next: 0 }
    }
}

/// The services of a reading, one by one.
#[derive(Clone, Debug)]
pub struct Services<'r> {
    reading: &'r Reading<'r>,
    next: usize,
}

impl<'r> Iterator for Services<'r> {
    type Item = Service<'r>;

    fn next(&mut self) -> Option<Service<'r>> {
        let found = library::next_service(self.reading.interchange, &self.reading.rows, self.next);
        if !found.found {
            return None;
        }
        self.next = found.from + 1;
        Some(Service { reading: self.reading, found })
    }
}

/// What a service's message does to it.
#[derive(Clone, Copy, Debug, PartialEq, Eq)]
pub enum Change {
    /// It runs as its periods say.
    Put,
    /// It runs no more.
    Removal,
}

/// A service of an interchange. Its number and periods are those that stand there: 11 to 14 are tested where it is staged.
#[derive(Clone, Copy, Debug)]
pub struct Service<'r> {
    reading: &'r Reading<'r>,
    found: library::Found,
}

impl Service<'_> {
    /// Where its PRD begins in the interchange.
    pub fn position(&self) -> usize {
        self.found.prd
    }

    /// Whether it is a put or a removal.
    pub fn change(&self) -> Change {
        if self.found.removal {
            Change::Removal
        } else {
            Change::Put
        }
    }

    /// Its number after release; empty where there is none.
    pub fn number(&self) -> String {
        let (from, to) = (self.found.number_from, self.found.number_to);
        library::written(to.saturating_sub(from), |out| library::number(self.reading.interchange, from, to, out))
            .expect("a number after release is no longer than as it is written")
    }

    /// Its days over the 512 days from `first` on; a POP with neither form means what it did in the reading. 19 for a first date that is
    /// none, 13 at the POP.
    pub fn days(&self, first: Date) -> Result<Calendar, Refusal> {
        let mut days = Calendar::new();
        let Reading { interchange, rows, neither } = self.reading;
        let among = library::Rows { from: self.found.from, to: self.found.to };
        library::days(interchange, rows, among, first, neither.is_old_reading(), days.bytes_mut())?;
        Ok(days)
    }
}
