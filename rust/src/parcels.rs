//! An interchange in parcels: it is read as it arrives, and what has been read need not be kept.

use crate::library;
use crate::reading::{rows_of, Row};
use crate::{NeitherForm, Refusal};
use std::fmt;

/// Bytes of the store that a reading in parcels is kept in.
pub const STORE_LENGTH: usize = 12_328;

/// Numbers that hold the rows of any parcel of so many bytes, three each: a segment has at least four bytes.
pub const fn room_for(parcel: usize) -> usize {
    (parcel / 4 + 1) * 3
}

/// A reading in parcels. However an interchange is cut, rows and answer are those of [`read`](crate::read) while no segment is over
/// 4,096 bytes; where that refuses, the rows of the segments before the fault are given out too.
///
/// ```no_run
/// use std::io::Read;
/// let mut reading = drumcallisto::Parcels::new(drumcallisto::NeitherForm::Refused);
/// let (mut parcel, mut room) = ([0; 1_460], [0; drumcallisto::room_for(1_460)]);
/// loop {
///     let length = std::io::stdin().read(&mut parcel)?;
///     if length == 0 {
///         break;
///     }
///     let taken = reading.take(&parcel[..length], &mut room);
///     taken.rows().for_each(|row| println!("{row:?}"));
///     taken.answer()?;
/// }
/// println!("{} rows", reading.finish()?);
/// # Ok::<(), Box<dyn std::error::Error>>(())
/// ```
#[derive(Clone)]
pub struct Parcels {
    store: Box<[u8; STORE_LENGTH]>,
}

impl Parcels {
    /// A reading before its first byte, which keeps what a POP with neither form means for all that follows.
    pub fn new(neither: NeitherForm) -> Parcels {
        let mut store = Box::new([0; STORE_LENGTH]);
        library::begin(&mut store[..], neither.is_old_reading()).expect("a store of this length is good");
        Parcels { store }
    }

    /// The reading that these bytes are. Any bytes are some reading; those of [`as_bytes`](Parcels::as_bytes) are the one they were taken of.
    pub fn from_bytes(bytes: &[u8; STORE_LENGTH]) -> Parcels {
        Parcels { store: Box::new(*bytes) }
    }

    /// Its bytes, to be kept until the next parcel arrives.
    pub fn as_bytes(&self) -> &[u8; STORE_LENGTH] {
        &self.store
    }

    /// Reads on in a parcel, which may be empty. The rows of the segments that end in it go to the front of `room`. 3, 4, 6 to 10 and
    /// 21 are final: later calls repeat them, with no row. 17, where `room` is too short, is not: the parcel was not taken, and may
    /// be given again. After an accepted [`finish`](Parcels::finish) it is passed over, whatever its bytes.
    pub fn take<'a>(&mut self, parcel: &[u8], room: &'a mut [u32]) -> Taken<'a> {
        let (count, refusal) = library::take(&mut self.store[..], parcel, room);
        Taken { rows: &room[..3 * count], refusal }
    }

    /// The input is over. Says how many rows there were. 3 for no byte, 4 or 5 inside a segment, 7, or the refusal that was final; later
    /// calls repeat the answer.
    pub fn finish(&mut self) -> Result<usize, Refusal> {
        library::finish(&mut self.store[..])
    }
}

impl fmt::Debug for Parcels {
    fn fmt(&self, f: &mut fmt::Formatter<'_>) -> fmt::Result {
        f.debug_struct("Parcels").finish_non_exhaustive()
    }
}

/// What a parcel brought: its rows, and whether a fault was found behind them.
#[derive(Clone, Copy, Debug)]
#[must_use]
pub struct Taken<'a> {
    rows: &'a [u32],
    refusal: Option<Refusal>,
}

impl<'a> Taken<'a> {
    /// The rows of the segments that end in the parcel, up to the fault where there is one.
    pub fn rows(&self) -> impl Iterator<Item = Row> + 'a {
        rows_of(self.rows)
    }

    /// How it went: well so far, or the refusal.
    pub fn answer(&self) -> Result<(), Refusal> {
        self.refusal.map_or(Ok(()), Err)
    }
}
