//! An engine, and its seats.
use crate::{seat::Block, sys, Error, Seat};
use std::{cell::UnsafeCell, fmt, mem::MaybeUninit, ptr::null_mut, sync::Arc};

/// How large an engine is.
#[derive(Debug, Clone, Copy)]
pub struct Sizes {
    /// Seats, 1 to 64: so many threads work at once.
    pub seats: usize,
    /// Records for rows, 0 to 195,888 less 32 for each seat: two a row; where rows come and go up to four, six with an index.
    pub rows: u32,
    /// Spare places for versions, 1 to 262,144; 0 stands for as many as is advised.
    pub spare: u32,
}

/// An engine of eight empty tables. It keeps the seats that nobody has, and may be shared by threads.
///
/// Seats go round: who takes one gets that which has rested longest, and sees all that was committed at seats that had been given back. So none of them
/// rests while others work.
///
/// ```
/// use cicada::{Engine, Error, Read};
///
/// let engine = Engine::open(2, 1000)?;
/// let mut seat = engine.take().expect("nobody has it");
/// seat.transact(|txn| txn.put(0, 7, &[1, 2, 3, 4, 5, 6]))?;
/// engine.give_back(seat).expect("it is of this engine");
/// let mut other = engine.take().expect("nobody has it");
/// assert_eq!(other.transact(|txn| txn.get(0, 7))?, Some([1, 2, 3, 4, 5, 6]));
/// # Ok::<(), Error>(())
/// ```
pub struct Engine {
    block: Arc<Block>,
    pool: Box<UnsafeCell<MaybeUninit<sys::Pool>>>,
}

// SAFETY: the calls of a pool may be made by all threads at once, and seats may go to another thread.
unsafe impl Send for Engine {}
unsafe impl Sync for Engine {}

impl Drop for Engine {
    // Closes the seats that nobody has.
    fn drop(&mut self) {
        while let Some(seat) = self.take() {
            drop(seat);
        }
    }
}

impl fmt::Debug for Engine {
    fn fmt(&self, f: &mut fmt::Formatter<'_>) -> fmt::Result {
        f.debug_struct("Engine").finish_non_exhaustive()
    }
}

impl Engine {
    /// An engine of so many seats and records for rows, with as many spare places as is advised.
    pub fn open(seats: usize, rows: u32) -> Result<Self, Error> {
        Self::open_with(Sizes { seats, rows, spare: 0 })
    }

    /// An engine of these sizes. `Range`: one of them is out of its range. `NoMemory`.
    pub fn open_with(sizes: Sizes) -> Result<Self, Error> {
        if sizes.seats == 0 || sizes.seats > 64 {
            return Err(Error::Range);
        }
        let block = Arc::new(Block::of(sizes.seats));
        let pool = Box::new(UnsafeCell::new(MaybeUninit::zeroed()));
        // SAFETY: the block has room for so many connections, and stays where it is until its last seat has gone; so does the pool until the engine has.
        let status = unsafe { sys::cicada_open(sizes.rows, sizes.spare, block.at(0), sizes.seats) };
        if status != sys::OK {
            return Err(crate::seat::error_of(status, None));
        }
        let engine = Engine { block, pool };
        // SAFETY: the same.
        match unsafe { sys::cicada_share(engine.block.at(0), sizes.seats, engine.at_pool()) } {
            sys::OK => Ok(engine),
            status => Err(crate::seat::error_of(status, None)),
        }
    }

    fn at_pool(&self) -> *mut sys::Pool {
        self.pool.get().cast()
    }

    /// The seat that has rested longest of those that nobody has; `None` where all are taken.
    pub fn take(&self) -> Option<Seat> {
        let mut at = null_mut();
        // SAFETY: the pool stays where it is.
        let status = unsafe { sys::cicada_take(self.at_pool(), &mut at) };
        (status == sys::OK).then(|| Seat::of(&self.block, at))
    }

    /// Takes a seat back. One of another engine is handed back.
    pub fn give_back(&self, seat: Seat) -> Result<(), Seat> {
        // SAFETY: the pool and the connection stay where they are, and nobody else has the seat.
        match unsafe { sys::cicada_give_back(self.at_pool(), seat.at_connection()) } {
            sys::OK => {
                seat.let_go();
                Ok(())
            }
            _ => Err(seat),
        }
    }

    /// Lets the seats that nobody has tick and collect, so that others need not wait for them. While seats are taken again and again, it is not needed.
    pub fn rest(&self) -> Result<(), Error> {
        for _ in 0..self.block.len() {
            let Some(mut seat) = self.take() else { break };
            let rested = seat.rest();
            // (it is of this engine, and nothing is open there)
            let _given = self.give_back(seat);
            rested?;
        }
        Ok(())
    }

    /// All seats that nobody has.
    pub fn into_seats(self) -> Vec<Seat> {
        std::iter::from_fn(|| self.take()).collect()
    }
}
