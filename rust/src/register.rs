//! The register.

use crate::library;
use crate::{Date, NeitherForm, Number, Refusal};

/// Bytes of a register.
pub const REGISTER_LENGTH: usize = 35_858;
/// How many accounts a register has, from 1 on.
pub const ACCOUNTS: usize = 8;
/// The greatest sum of the quotas.
pub const QUOTA_SUM: u32 = 256;
/// The greatest length of a service number, in characters.
pub const NUMBER_LENGTH: usize = 10;
/// Bytes that hold any record's lines.
const RECORD_LENGTH: usize = 1_057;

/// Whether the bytes are a register.
pub fn is_register(bytes: &[u8]) -> bool {
    library::is_register(bytes)
}

/// A register's bytes. They are a register from the start, so that no call on it gives 1.
#[derive(Clone, Debug, PartialEq, Eq)]
pub struct Register {
    bytes: Box<[u8; REGISTER_LENGTH]>,
}

impl Register {
    /// A register of no records, with a window of 512 days from `first` on and a quota for each of accounts 1 to 8. 18.
    pub fn open(first: Date, quotas: [u32; ACCOUNTS]) -> Result<Register, Refusal> {
        let mut bytes = Box::new([0; REGISTER_LENGTH]);
        library::open(&mut bytes[..], first, &quotas)?;
        Ok(Register { bytes })
    }

    /// The register that these bytes are. 1.
    pub fn from_bytes(bytes: &[u8]) -> Result<Register, Refusal> {
        let refusal = Refusal { number: Number::NotARegister, position: 0, part: None };
        if !library::is_register(bytes) {
            return Err(refusal);
        }
        let whole = <[u8; REGISTER_LENGTH]>::try_from(bytes).map_err(|_| refusal)?;
        Ok(Register { bytes: Box::new(whole) })
    }

    /// Its bytes, to be kept.
    pub fn as_bytes(&self) -> &[u8; REGISTER_LENGTH] {
        &self.bytes
    }

    /// The interchange's services become pending, all of them or none. Says how many. 2, 3 to 10, 11 to 14, 15.
    pub fn stage(&mut self, account: usize, interchange: &[u8], neither: NeitherForm) -> Result<usize, Refusal> {
        library::stage(&mut self.bytes[..], account, interchange, neither.is_old_reading())
    }

    /// Every pending entry becomes live or removes its record. Says how many. 2.
    pub fn release(&mut self, account: usize) -> Result<usize, Refusal> {
        library::release(&mut self.bytes[..], account)
    }

    /// Drops the pending entry of a number, plain and not released. 2, 16.
    pub fn withdraw(&mut self, account: usize, number: &[u8]) -> Result<(), Refusal> {
        library::withdraw(&mut self.bytes[..], account, number).map(|_| ())
    }

    /// The lines of the account's k-th record, from 0. 2, 16.
    pub fn show(&self, account: usize, k: usize) -> Result<String, Refusal> {
        library::written(RECORD_LENGTH, |out| library::show(&self.bytes[..], account, k, out))
    }
}
