//! Serializable transactions over tables in memory, by a library whose every call is proved.
//!
//! An [`Engine`] has seats; a [`Seat`] is what one thread works at. There are eight tables, 0 to 7, of rows of six numbers under keys of 64 bits.
//!
//! ```
//! use cicada::{Engine, Error, Read};
//! use std::thread;
//!
//! let mut seats = Engine::open(4, 10_000)?.into_seats();
//! seats[0].transact(|txn| (0..8).try_for_each(|key| txn.put(0, key, &[100, 0, 0, 0, 0, 0])))?;
//!
//! thread::scope(|scope| {
//!     for seat in &mut seats {
//!         scope.spawn(move || {
//!             for i in 0..100 {
//!                 seat.transact(|txn| {
//!                     let (from, to) = (i % 8, (i * 3 + 1) % 8);
//!                     let Some(mut row) = txn.get::<[u64; 6]>(0, from)? else { return Ok(()) };
//!                     let moved = row[0].min(5);
//!                     row[0] -= moved;
//!                     txn.put(0, from, &row)?;
//!                     let Some(mut row) = txn.get::<[u64; 6]>(0, to)? else { return Ok(()) };
//!                     row[0] += moved;
//!                     txn.put(0, to, &row)
//!                 })?;
//!             }
//!             Ok::<(), Error>(())
//!         });
//!     }
//! });
//!
//! let sum = seats[0].transact(|txn| {
//!     txn.rows::<[u64; 6]>(0, ..).map(|row| row.map(|(_, columns)| columns[0])).sum::<Result<u64, Error>>()
//! })?;
//! assert_eq!(sum, 800);
//! # Ok::<(), Error>(())
//! ```
#![warn(missing_docs)]

mod engine;
mod error;
mod open;
mod row;
mod seat;
mod sys;

pub use engine::{Engine, Sizes};
pub use error::Error;
pub use open::{Read, Rows, Txn, View};
pub use row::{Columns, Row};
pub use seat::{Counts, Seat};

/// The version of the library that is linked; it ends in "+unproved" where that was built without its proofs.
pub fn version() -> String {
    // SAFETY: the library answers a text that lives as long as it does.
    let text = unsafe { std::ffi::CStr::from_ptr(sys::cicada_version()) };
    text.to_string_lossy().into_owned()
}
