//! Why a call is refused.
use crate::sys;
use std::{error, ffi::CStr, fmt};

/// Why a call is refused.
#[derive(Debug, Clone, Copy, PartialEq, Eq)]
#[non_exhaustive]
pub enum Error {
    /// Another transaction is in the way. [`Seat::transact`](crate::Seat::transact) begins again, and hands this out after the last try.
    Conflict {
        /// The stamp that is in the way; [`Seat::hear`](crate::Seat::hear) of it begins above it.
        stamp: u64,
        /// The record at which it is.
        record: u32,
    },
    /// No place for versions is left. `transact` begins again here too. Where it stays so, open with more spare places, or have seats that rest
    /// [`rest`](crate::Seat::rest).
    PlacesOut,
    /// No record is left for a row, at any seat.
    RecordsOut,
    /// The allocator had no room.
    NoMemory,
    /// The clock of the seat has come to its end.
    ClockOut,
    /// A number is out of its range: a table above 7, a size, a stamp that is none.
    Range,
    /// What is open at the seat does not fit the call.
    Misused,
    /// Another call is in the seat. Safe Rust cannot bring it about.
    Busy,
    /// The row at this key is none of the type that was asked for.
    Foreign {
        /// Its table.
        table: u32,
        /// Its key.
        key: u64,
    },
    /// A status that this crate does not know: the library is of another version.
    Unknown(i32),
}

impl Error {
    fn status(&self) -> i32 {
        match self {
            Error::Conflict { .. } => sys::CONFLICT,
            Error::PlacesOut => sys::PLACES_OUT,
            Error::RecordsOut => sys::RECORDS_OUT,
            Error::NoMemory => sys::NO_MEMORY,
            Error::ClockOut => sys::CLOCK_OUT,
            Error::Range => sys::RANGE,
            Error::Misused => sys::MISUSED,
            Error::Busy => sys::BUSY,
            Error::Foreign { .. } => sys::OK,
            Error::Unknown(status) => *status,
        }
    }

    /// Whether another try may come through.
    pub fn is_passing(&self) -> bool {
        matches!(self, Error::Conflict { .. } | Error::PlacesOut)
    }
}

impl fmt::Display for Error {
    fn fmt(&self, f: &mut fmt::Formatter<'_>) -> fmt::Result {
        if let Error::Foreign { table, key } = self {
            return write!(f, "the row at key {key} of table {table} is of another type");
        }
        // SAFETY: the library answers a text that lives as long as it does.
        let text = unsafe { CStr::from_ptr(sys::cicada_status_text(self.status())) };
        f.write_str(&text.to_string_lossy())
    }
}

impl error::Error for Error {}
