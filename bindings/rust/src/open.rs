//! Transactions and snapshots.
use crate::{sys, Columns, Error, Row, Seat};
use std::{
    collections::VecDeque,
    marker::PhantomData,
    ops::{Bound, RangeBounds},
};

/// How many rows an iterator reads at a time.
const PAGE: usize = 256;
/// No engine has more rows.
const MOST_ROWS: usize = 195_888;

/// An open transaction. What it writes it sees at once, and the others once it commits.
pub struct Txn<'a> {
    seat: &'a mut Seat,
    fault: Option<Error>,
    ended: bool,
    stamp: u64,
}

/// An open snapshot, or a transaction, to be read.
pub struct View<'a> {
    seat: &'a mut Seat,
}

/// What transactions and snapshots have in common: they are read.
pub trait Read {
    #[doc(hidden)]
    fn look(&mut self) -> &mut Seat;

    #[doc(hidden)]
    fn note(&mut self, fault: Error) -> Error;

    /// The row of a table at a key, if there is one. `Foreign`: it is none of this type.
    fn get<R: Row>(&mut self, table: u32, key: u64) -> Result<Option<R>, Error> {
        let mut columns = Columns::default();
        let seat = self.look();
        // SAFETY: as for each call of a seat; there is room for six columns.
        let status = unsafe { sys::cicada_get(seat.at_connection(), table, key, columns.as_mut_ptr()) };
        match seat.answer(status) {
            Ok(true) => R::from_columns(&columns).map(Some).ok_or(Error::Foreign { table, key }),
            Ok(false) => Ok(None),
            Err(fault) => Err(self.note(fault)),
        }
    }

    /// The first rows of a table with keys of a range, by rising key, `most` at most.
    fn list<R: Row>(&mut self, table: u32, keys: impl RangeBounds<u64>, most: usize) -> Result<Vec<(u64, R)>, Error> {
        let mut rows = Vec::new();
        let Some((mut low, high)) = ends(&keys) else { return Ok(rows) };
        while rows.len() < most {
            let room = PAGE.min(most - rows.len());
            let page = self.page(table, low, high, room)?;
            let more = page.back().filter(|row| page.len() == room && row.0 < high).map(|row| row.0 + 1);
            for (key, columns) in page {
                rows.push((key, R::from_columns(&columns).ok_or(Error::Foreign { table, key })?));
            }
            let Some(next) = more else { break };
            low = next;
        }
        Ok(rows)
    }

    /// All rows of a table with keys of a range, by rising key. They are read as they are asked for, some hundreds at a time.
    fn rows<R: Row>(&mut self, table: u32, keys: impl RangeBounds<u64>) -> Rows<'_, Self, R> {
        Rows { from: self, table, left: ends(&keys), page: VecDeque::new(), row: PhantomData }
    }

    /// How many rows of a table have keys of a range.
    fn count(&mut self, table: u32, keys: impl RangeBounds<u64>) -> Result<usize, Error> {
        let Some((low, high)) = ends(&keys) else { return Ok(0) };
        let (mut listed, mut there) = (0, 0);
        let seat = self.look();
        let none = std::ptr::null_mut();
        // SAFETY: as for each call of a seat; arrays of no places may be null.
        let status = unsafe {
            sys::cicada_list(seat.at_connection(), table, low, high, 0, none, none.cast(), &mut listed, &mut there)
        };
        match seat.answer(status) {
            Ok(_) => Ok(there),
            Err(fault) => Err(self.note(fault)),
        }
    }

    /// The first rows of a table whose column (1 to 6) has a value of a range, by rising value and then by rising key, `most` at most; `None`
    /// where the table has no index on that column.
    fn find<R: Row>(
        &mut self,
        table: u32,
        column: u32,
        values: impl RangeBounds<u64>,
        most: usize,
    ) -> Result<Option<Vec<(u64, R)>>, Error> {
        let (low, high) = ends(&values).unwrap_or((1, 0));
        let room = most.min(MOST_ROWS);
        let (mut keys, mut rows, mut listed) = (vec![0; room], vec![Columns::default(); room], 0);
        let seat = self.look();
        // SAFETY: as for each call of a seat; both arrays have so much room.
        let status = unsafe {
            let there = std::ptr::null_mut();
            let (keys, rows) = (keys.as_mut_ptr(), rows.as_mut_ptr());
            sys::cicada_find(seat.at_connection(), table, column, low, high, room, keys, rows, &mut listed, there)
        };
        match seat.answer(status) {
            Ok(false) => Ok(None),
            Ok(true) => {
                let pairs = keys.into_iter().zip(rows).take(listed);
                let rows = pairs.map(|(key, columns)| {
                    R::from_columns(&columns).map(|row| (key, row)).ok_or(Error::Foreign { table, key })
                });
                rows.collect::<Result<_, _>>().map(Some)
            }
            Err(fault) => Err(self.note(fault)),
        }
    }

    #[doc(hidden)]
    fn page(&mut self, table: u32, low: u64, high: u64, room: usize) -> Result<VecDeque<(u64, Columns)>, Error> {
        let (mut keys, mut rows, mut listed) = (vec![0; room], vec![Columns::default(); room], 0);
        let seat = self.look();
        // SAFETY: as for each call of a seat; both arrays have so much room.
        let status = unsafe {
            let there = std::ptr::null_mut();
            sys::cicada_list(seat.at_connection(), table, low, high, room, keys.as_mut_ptr(), rows.as_mut_ptr(), &mut listed, there)
        };
        match seat.answer(status) {
            Ok(_) => Ok(keys.into_iter().zip(rows).take(listed).collect()),
            Err(fault) => Err(self.note(fault)),
        }
    }
}

// The least and the greatest key of a range, where it has one.
fn ends(keys: &impl RangeBounds<u64>) -> Option<(u64, u64)> {
    let low = match keys.start_bound() {
        Bound::Included(key) => *key,
        Bound::Excluded(key) => key.checked_add(1)?,
        Bound::Unbounded => 0,
    };
    let high = match keys.end_bound() {
        Bound::Included(key) => *key,
        Bound::Excluded(key) => key.checked_sub(1)?,
        Bound::Unbounded => u64::MAX,
    };
    (low <= high).then_some((low, high))
}

/// Rows as they are asked for.
pub struct Rows<'a, F: ?Sized, R> {
    from: &'a mut F,
    table: u32,
    left: Option<(u64, u64)>,
    page: VecDeque<(u64, Columns)>,
    row: PhantomData<fn() -> R>,
}

impl<F: Read + ?Sized, R: Row> Iterator for Rows<'_, F, R> {
    type Item = Result<(u64, R), Error>;

    fn next(&mut self) -> Option<Self::Item> {
        if self.page.is_empty() {
            let (low, high) = self.left.take()?;
            match self.from.page(self.table, low, high, PAGE) {
                Ok(page) => self.page = page,
                Err(fault) => return Some(Err(fault)),
            }
            if self.page.len() == PAGE {
                self.left = self.page.back().filter(|row| row.0 < high).map(|row| (row.0 + 1, high));
            }
        }
        let (key, columns) = self.page.pop_front()?;
        let table = self.table;
        Some(R::from_columns(&columns).map(|row| (key, row)).ok_or(Error::Foreign { table, key }))
    }
}

impl Read for Txn<'_> {
    fn look(&mut self) -> &mut Seat {
        self.seat
    }

    fn note(&mut self, fault: Error) -> Error {
        // (a number out of range changes nothing; each other fault has ended the transaction)
        if !matches!(fault, Error::Range | Error::Misused | Error::Busy) {
            self.fault.get_or_insert(fault);
        }
        fault
    }
}

impl Read for View<'_> {
    fn look(&mut self) -> &mut Seat {
        self.seat
    }

    fn note(&mut self, fault: Error) -> Error {
        fault
    }
}

impl<'a> Txn<'a> {
    pub(crate) fn open(seat: &'a mut Seat) -> Self {
        Txn { seat, fault: None, ended: false, stamp: 0 }
    }

    // What has ended the transaction.
    pub(crate) fn fault(&self) -> Option<Error> {
        self.fault
    }

    /// Sets the row of a table at a key, whether there is one or not.
    pub fn put<R: Row>(&mut self, table: u32, key: u64, row: &R) -> Result<(), Error> {
        let columns = row.to_columns();
        // SAFETY: as for each call of a seat; there are six columns.
        let status = unsafe { sys::cicada_put(self.seat.at_connection(), table, key, columns.as_ptr()) };
        self.seat.answer(status).map(drop).map_err(|fault| self.note(fault))
    }

    /// Takes the row of a table at a key out, and answers whether there was one.
    pub fn remove(&mut self, table: u32, key: u64) -> Result<bool, Error> {
        // SAFETY: as for each call of a seat.
        let status = unsafe { sys::cicada_remove(self.seat.at_connection(), table, key) };
        self.seat.answer(status).map_err(|fault| self.note(fault))
    }

    /// Declares an index of a table on a column (1 to 6), while the table has no row and no index, and answers whether it did.
    pub fn declare_index(&mut self, table: u32, column: u32) -> Result<bool, Error> {
        // SAFETY: as for each call of a seat.
        let status = unsafe { sys::cicada_declare_index(self.seat.at_connection(), table, column) };
        self.seat.answer(status).map_err(|fault| self.note(fault))
    }

    pub(crate) fn commit(mut self) -> Result<(), Error> {
        self.ended = true;
        // SAFETY: as for each call of a seat; a record need not be told.
        let status = unsafe { sys::cicada_commit(self.seat.at_connection(), &mut self.stamp, std::ptr::null_mut()) };
        self.seat.answer(status).map(drop)
    }

    pub(crate) fn abort(self) {}
}

impl Drop for Txn<'_> {
    fn drop(&mut self) {
        if !self.ended {
            // SAFETY: as for each call of a seat.
            unsafe { sys::cicada_abort(self.seat.at_connection()) };
        }
    }
}

impl<'a> View<'a> {
    pub(crate) fn open(seat: &'a mut Seat) -> Self {
        View { seat }
    }
}

impl Drop for View<'_> {
    fn drop(&mut self) {
        let mut stamp = 0;
        // SAFETY: as for each call of a seat.
        unsafe { sys::cicada_finish(self.seat.at_connection(), &mut stamp) };
    }
}
