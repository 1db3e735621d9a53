//! The library's functions as `include/drumcallisto.h` declares them, each behind a safe one that lends it slices.
//!
//! All that the library asks of its caller is that each pointer is valid for the length beside it and that no two buffers of a
//! call overlap. A slice's pointer is valid for its length, for reading, and for writing too where it is lent with `&mut`; and
//! what is lent with `&mut` overlaps nothing else. This is the reason of each `unsafe` below. It is the only module that has any.
#![allow(unsafe_code)]

use crate::{Date, Number, Part, Refusal};

#[repr(C)]
struct Reply {
    number: u8,
    position: usize,
    part: u8,
    value: usize,
}

/// A service, or that there is no more.
#[derive(Clone, Copy, Debug)]
#[repr(C)]
pub struct Found {
    pub found: bool,
    pub removal: bool,
    pub prd: usize,
    pub number_from: usize,
    pub number_to: usize,
    pub from: usize,
    pub to: usize,
}

/// Some of the rows: from one up to and without another.
#[derive(Clone, Copy, Debug)]
#[repr(C)]
pub struct Rows {
    pub from: usize,
    pub to: usize,
}

extern "C" {
    fn drumcallisto_read(interchange: *const u8, length: usize, old_reading: bool, rows: *mut u32, room: usize) -> Reply;
    fn drumcallisto_begin(store: *mut u8, length: usize, old_reading: bool) -> Reply;
    fn drumcallisto_take(store: *mut u8, length: usize, parcel: *const u8, parcel_length: usize, rows: *mut u32, room: usize) -> Reply;
    fn drumcallisto_finish(store: *mut u8, length: usize) -> Reply;
    fn drumcallisto_next_service(interchange: *const u8, length: usize, rows: *const u32, room: usize, n: usize, i: usize) -> Found;
    fn drumcallisto_number(interchange: *const u8, length: usize, from: usize, to: usize, out: *mut u8, room: usize) -> Reply;
    fn drumcallisto_days(
        interchange: *const u8,
        length: usize,
        rows: *const u32,
        room: usize,
        among: Rows,
        first: Date,
        old_reading: bool,
        days: *mut u8,
        days_length: usize,
    ) -> Reply;
    fn drumcallisto_write_day_string(
        days: *const u8,
        length: usize,
        first: Date,
        last: Date,
        short_form: bool,
        out: *mut u8,
        room: usize,
    ) -> Reply;
    fn drumcallisto_write_weekdays(days: *const u8, length: usize, first: Date, last: Date, out: *mut u8, room: usize) -> Reply;
    fn drumcallisto_is_register(register: *const u8, length: usize) -> bool;
    fn drumcallisto_open(register: *mut u8, length: usize, first: Date, quotas: *const u32) -> Reply;
    fn drumcallisto_stage(
        register: *mut u8,
        length: usize,
        account: usize,
        interchange: *const u8,
        interchange_length: usize,
        old_reading: bool,
    ) -> Reply;
    fn drumcallisto_release(register: *mut u8, length: usize, account: usize) -> Reply;
    fn drumcallisto_withdraw(register: *mut u8, length: usize, account: usize, number: *const u8, number_length: usize) -> Reply;
    fn drumcallisto_show(register: *const u8, length: usize, account: usize, k: usize, out: *mut u8, room: usize) -> Reply;
}

/// The value, or the refusal.
fn told(reply: Reply) -> Result<usize, Refusal> {
    if reply.number == 0 {
        return Ok(reply.value);
    }
    let number = Number::of(reply.number).expect("the library's numbers are 0 to 21");
    let part = match reply.part {
        0 => None,
        part => Some(Part::of(part).expect("the library's parts are 0 to 6")),
    };
    Err(Refusal { number, position: reply.position, part })
}

/// What a call writes to the front of an output of `room` bytes. All that the library writes is ASCII.
pub fn written(room: usize, call: impl FnOnce(&mut [u8]) -> Result<usize, Refusal>) -> Result<String, Refusal> {
    let mut out = vec![0; room];
    let length = call(&mut out)?;
    out.truncate(length);
    Ok(String::from_utf8(out).expect("the library writes ASCII"))
}

/// How many rows it wrote.
pub fn read(interchange: &[u8], old_reading: bool, rows: &mut [u32]) -> Result<usize, Refusal> {
    // SAFETY: two slices, and the one written is lent with `&mut`.
    told(unsafe { drumcallisto_read(interchange.as_ptr(), interchange.len(), old_reading, rows.as_mut_ptr(), rows.len()) })
}

/// A reading before its first byte.
pub fn begin(store: &mut [u8], old_reading: bool) -> Result<usize, Refusal> {
    // SAFETY: one slice, lent with `&mut`.
    told(unsafe { drumcallisto_begin(store.as_mut_ptr(), store.len(), old_reading) })
}

/// How many rows it wrote, beside a refusal too.
pub fn take(store: &mut [u8], parcel: &[u8], rows: &mut [u32]) -> (usize, Option<Refusal>) {
    let (s, n, r, room) = (store.as_mut_ptr(), store.len(), rows.as_mut_ptr(), rows.len());
    // SAFETY: three slices, and the two written are lent with `&mut`; any store does no harm.
    let reply = unsafe { drumcallisto_take(s, n, parcel.as_ptr(), parcel.len(), r, room) };
    (reply.value, told(reply).err())
}

/// How many rows there were in all.
pub fn finish(store: &mut [u8]) -> Result<usize, Refusal> {
    // SAFETY: one slice, lent with `&mut`; any store does no harm.
    told(unsafe { drumcallisto_finish(store.as_mut_ptr(), store.len()) })
}

/// The first service at row i or later.
pub fn next_service(interchange: &[u8], rows: &[u32], i: usize) -> Found {
    // SAFETY: two slices that are only read; any rows do no harm.
    unsafe { drumcallisto_next_service(interchange.as_ptr(), interchange.len(), rows.as_ptr(), rows.len(), rows.len() / 3, i) }
}

/// The length of what stands between two offsets after release.
pub fn number(interchange: &[u8], from: usize, to: usize, out: &mut [u8]) -> Result<usize, Refusal> {
    // SAFETY: two slices, and the one written is lent with `&mut`; any offsets do no harm.
    told(unsafe { drumcallisto_number(interchange.as_ptr(), interchange.len(), from, to, out.as_mut_ptr(), out.len()) })
}

/// The days of the POPs among some rows.
pub fn days(interchange: &[u8], rows: &[u32], among: Rows, first: Date, old_reading: bool, days: &mut [u8]) -> Result<usize, Refusal> {
    let (s, n, r, room) = (interchange.as_ptr(), interchange.len(), rows.as_ptr(), rows.len());
    // SAFETY: three slices, and the one written is lent with `&mut`; any rows and any first date do no harm.
    told(unsafe { drumcallisto_days(s, n, r, room, among, first, old_reading, days.as_mut_ptr(), days.len()) })
}

/// How many bytes it wrote.
pub fn write_day_string(days: &[u8], first: Date, last: Date, short_form: bool, out: &mut [u8]) -> Result<usize, Refusal> {
    // SAFETY: two slices, and the one written is lent with `&mut`.
    told(unsafe { drumcallisto_write_day_string(days.as_ptr(), days.len(), first, last, short_form, out.as_mut_ptr(), out.len()) })
}

/// How many bytes it wrote.
pub fn write_weekdays(days: &[u8], first: Date, last: Date, out: &mut [u8]) -> Result<usize, Refusal> {
    // SAFETY: two slices, and the one written is lent with `&mut`.
    told(unsafe { drumcallisto_write_weekdays(days.as_ptr(), days.len(), first, last, out.as_mut_ptr(), out.len()) })
}

pub fn is_register(bytes: &[u8]) -> bool {
    // SAFETY: one slice that is only read.
    unsafe { drumcallisto_is_register(bytes.as_ptr(), bytes.len()) }
}

pub fn open(register: &mut [u8], first: Date, quotas: &[u32; 8]) -> Result<usize, Refusal> {
    // SAFETY: a slice lent with `&mut`, and the eight quotas that the library reads.
    told(unsafe { drumcallisto_open(register.as_mut_ptr(), register.len(), first, quotas.as_ptr()) })
}

/// How many services became pending.
pub fn stage(register: &mut [u8], account: usize, interchange: &[u8], old_reading: bool) -> Result<usize, Refusal> {
    let (r, n) = (register.as_mut_ptr(), register.len());
    // SAFETY: two slices, and the one written is lent with `&mut`.
    told(unsafe { drumcallisto_stage(r, n, account, interchange.as_ptr(), interchange.len(), old_reading) })
}

/// How many entries were pending.
pub fn release(register: &mut [u8], account: usize) -> Result<usize, Refusal> {
    // SAFETY: one slice, lent with `&mut`.
    told(unsafe { drumcallisto_release(register.as_mut_ptr(), register.len(), account) })
}

pub fn withdraw(register: &mut [u8], account: usize, number: &[u8]) -> Result<usize, Refusal> {
    // SAFETY: two slices, and the one written is lent with `&mut`.
    told(unsafe { drumcallisto_withdraw(register.as_mut_ptr(), register.len(), account, number.as_ptr(), number.len()) })
}

/// How many bytes it wrote.
pub fn show(register: &[u8], account: usize, k: usize, out: &mut [u8]) -> Result<usize, Refusal> {
    // SAFETY: two slices, and the one written is lent with `&mut`.
    told(unsafe { drumcallisto_show(register.as_ptr(), register.len(), account, k, out.as_mut_ptr(), out.len()) })
}
