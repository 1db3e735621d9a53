//! Drumcallisto for Rust: safe functions over the library that `include/drumcallisto.h` declares.
//!
//! Each function of the library answers on every input and ends; what it promises is proved (`docs/CONTRACTS.md`). What a caller
//! in C owes, pointers that are valid for their length and do not overlap, is kept here by slices. A [`Refusal`] has the paper's
//! number, a position and beside 10 the [`Part`] of the POP that is wrong, and after it nothing that was lent has changed; in
//! [`Parcels`] alone the rows before a fault are written. Each call that reads a POP takes a [`NeitherForm`].
//!
//! ```no_run
//! use drumcallisto::NeitherForm;
//! let file = std::fs::read("samples/skdupd.edi")?;
//! for service in drumcallisto::read(&file, NeitherForm::Refused)?.services() {
//!     println!("{} runs on {} days", service.number(), service.days("2000-08-01".parse()?)?.count());
//! }
//! # Ok::<(), Box<dyn std::error::Error>>(())
//! ```

#![deny(unsafe_code)]
#![warn(missing_docs)]

mod calendar;
mod date;
mod library;
mod parcels;
mod reading;
mod refusal;
mod register;

pub use calendar::{Calendar, DayString, CALENDAR_LENGTH, WINDOW_DAYS};
pub use date::{Date, NotWrittenAsDate};
pub use parcels::{room_for, Parcels, Taken, STORE_LENGTH};
pub use reading::{read, Change, NeitherForm, Reading, Row, Service, Services, INTERCHANGE_LENGTH};
pub use refusal::{Number, Part, Refusal};
pub use register::{is_register, Register, ACCOUNTS, NUMBER_LENGTH, QUOTA_SUM, REGISTER_LENGTH};
