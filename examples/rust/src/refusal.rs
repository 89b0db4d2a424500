//! Why a call of a desk was refused.

use crate::{sys, words};
use std::error::Error;
use std::ffi::c_int;
use std::fmt;

/// Why a call of a desk was refused. A refused call changes nothing.
#[derive(Clone, Copy, Debug, PartialEq, Eq, Hash)]
#[repr(i32)]
#[non_exhaustive]
pub enum Refusal {
    Syntax = 1,
    NoEntry = 2,
    Exists = 3,
    Overflow = 4,
    Flags = 5,
    Limit = 6,
    Signalled = 7,
    TimedOut = 8,
    Foreign = 9,
    Torn = 10,
    NotAll = 11,
    LongLine = 12,
    Cancelled = 15,
    Memory = 16,
}

impl Refusal {
    const ALL: [Self; 14] = [
        Self::Syntax,
        Self::NoEntry,
        Self::Exists,
        Self::Overflow,
        Self::Flags,
        Self::Limit,
        Self::Signalled,
        Self::TimedOut,
        Self::Foreign,
        Self::Torn,
        Self::NotAll,
        Self::LongLine,
        Self::Cancelled,
        Self::Memory,
    ];

    /// Returns the result of a call that returned this number.
    pub(crate) fn of(number: c_int) -> Result<(), Self> {
        match Self::ALL.into_iter().find(|&it| it as c_int == number) {
            Some(refusal) => Err(refusal),
            None => Ok(()),
        }
    }

    /// The number of the header, as fencectl prints it after `err`.
    pub fn number(self) -> i32 {
        self as i32
    }

    /// The name that fencectl prints, as "NoEntry".
    pub fn name(self) -> &'static str {
        // SAFETY: the call takes any number, and returns a text that is never freed.
        unsafe { words::text(sys::bim_refusal_name(self as c_int)) }
    }
}

impl fmt::Display for Refusal {
    fn fmt(&self, formatter: &mut fmt::Formatter<'_>) -> fmt::Result {
        write!(formatter, "refused with {} {}", self.number(), self.name())
    }
}

impl Error for Refusal {}
