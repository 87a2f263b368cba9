//! A seat: what one thread works at.
use crate::{sys, Error, Txn, View};
use std::{
    cell::UnsafeCell,
    fmt,
    mem::{ManuallyDrop, MaybeUninit},
    ptr::{self, NonNull},
    sync::{
        atomic::{AtomicU32, Ordering},
        Arc, OnceLock,
    },
    thread,
    time::{Duration, Instant},
};

/// How often a transaction is tried at most, where nothing else is said.
const TRIES: u32 = 10_000;
/// After so many transactions a seat collects.
const BETWEEN_COLLECTIONS: u32 = 64;

// The connections of an engine, which stay where they are, and how many transactions each has made since it collected.
pub(crate) struct Block {
    connections: Box<[UnsafeCell<MaybeUninit<sys::Connection>>]>,
    since: Box<[AtomicU32]>,
}

// SAFETY: each connection is handed to the library by the one seat that has it.
unsafe impl Send for Block {}
unsafe impl Sync for Block {}

impl Block {
    pub(crate) fn of(count: usize) -> Self {
        let connections = (0..count).map(|_| UnsafeCell::new(MaybeUninit::zeroed())).collect();
        let since = (0..count).map(|_| AtomicU32::new(0)).collect();
        Block { connections, since }
    }

    pub(crate) fn len(&self) -> usize {
        self.connections.len()
    }

    pub(crate) fn at(&self, place: usize) -> *mut sys::Connection {
        self.connections[place].get().cast()
    }
}

/// A seat of an engine. It may go to another thread. A call takes it by `&mut`, so no two overlap; one that is let go is closed.
pub struct Seat {
    at: NonNull<sys::Connection>,
    block: Arc<Block>,
}

// SAFETY: that a connection may go to another thread is proved of its type, in `crates/cicada_c/src/handle.rt`.
unsafe impl Send for Seat {}

impl Drop for Seat {
    fn drop(&mut self) {
        // SAFETY: the connection was opened, and is this seat's alone.
        unsafe { sys::cicada_close(self.at.as_ptr()) };
    }
}

impl fmt::Debug for Seat {
    fn fmt(&self, f: &mut fmt::Formatter<'_>) -> fmt::Result {
        f.debug_struct("Seat").finish_non_exhaustive()
    }
}

/// The error of a status, which is neither `OK` nor `ABSENT`.
pub(crate) fn error_of(status: i32, met: Option<&Seat>) -> Error {
    match status {
        sys::CONFLICT => {
            let (mut stamp, mut record) = (0, 0);
            if let Some(seat) = met {
                // SAFETY: as for each call of a seat.
                unsafe { sys::cicada_conflict(seat.at_connection(), &mut stamp, &mut record) };
            }
            Error::Conflict { stamp, record }
        }
        sys::PLACES_OUT => Error::PlacesOut,
        sys::RECORDS_OUT => Error::RecordsOut,
        sys::NO_MEMORY => Error::NoMemory,
        sys::CLOCK_OUT => Error::ClockOut,
        sys::RANGE => Error::Range,
        sys::MISUSED => Error::Misused,
        sys::BUSY => Error::Busy,
        status => Error::Unknown(status),
    }
}

// One clock for all seats, in nanoseconds.
fn reading() -> u64 {
    static BEGAN: OnceLock<Instant> = OnceLock::new();
    BEGAN.get_or_init(Instant::now).elapsed().as_nanos() as u64
}

// Lets other threads go on, longer from try to try.
fn pause(turn: u32) {
    if turn < 4 {
        thread::yield_now();
    } else {
        thread::sleep(Duration::from_micros(1 << (turn - 4).min(10)));
    }
}

/// What a seat has done, and what it has.
#[derive(Debug, Clone, Copy, PartialEq, Eq)]
pub struct Counts {
    /// Transactions that committed.
    pub commits: u64,
    /// Tries that were refused.
    pub refusals: u64,
    /// Records that the seat has at hand for new rows: it takes more where it has fewer than 12, and keeps up to 32 between transactions.
    pub records: u64,
    /// Versions that it has committed, and below which `collect` has not come yet: they hold places.
    pub queued: u64,
}

impl Seat {
    pub(crate) fn of(block: &Arc<Block>, at: *mut sys::Connection) -> Self {
        let at = NonNull::new(at).expect("a connection of a block");
        Seat { at, block: block.clone() }
    }

    // Lets the seat go without closing it.
    pub(crate) fn let_go(self) {
        let seat = ManuallyDrop::new(self);
        // SAFETY: nothing of the seat is used any more.
        drop(unsafe { ptr::read(&seat.block) });
    }

    // How many transactions it has made since it collected.
    fn since(&self) -> &AtomicU32 {
        // SAFETY: it is a connection of the block.
        let place = unsafe { self.at.as_ptr().offset_from(self.block.at(0)) };
        &self.block.since[place as usize]
    }

    pub(crate) fn at_connection(&self) -> *mut sys::Connection {
        self.at.as_ptr()
    }

    // Whether it is done; false where there is no row.
    pub(crate) fn answer(&self, status: i32) -> Result<bool, Error> {
        match status {
            sys::OK => Ok(true),
            sys::ABSENT => Ok(false),
            status => Err(error_of(status, Some(self))),
        }
    }

    /// Runs the body in a transaction, and commits it; so again where others were in the way, ten thousand times at most.
    ///
    /// An error of the body, and a panic in it, ends the transaction without a trace. The error may be one of the caller's own, which is made of
    /// an [`Error`]. The body may run several times, so what it does beside its transaction it may do several times.
    ///
    /// ```
    /// # use cicada::{Engine, Read};
    /// #[derive(Debug, PartialEq)]
    /// enum Fault { Poor, Store(cicada::Error) }
    ///
    /// impl From<cicada::Error> for Fault {
    ///     fn from(error: cicada::Error) -> Self { Fault::Store(error) }
    /// }
    ///
    /// let mut seats = Engine::open(1, 100)?.into_seats();
    /// let seat = &mut seats[0];
    /// seat.transact(|txn| txn.put(0, 1, &[10, 0, 0, 0, 0, 0]))?;
    /// let taken = seat.transact(|txn| {
    ///     let Some([balance, rest @ ..]) = txn.get::<[u64; 6]>(0, 1)? else { return Err(Fault::Poor) };
    ///     let left = balance.checked_sub(30).ok_or(Fault::Poor)?;
    ///     let [a, b, c, d, e] = rest;
    ///     Ok(txn.put(0, 1, &[left, a, b, c, d, e])?)
    /// });
    /// assert_eq!(taken, Err(Fault::Poor));
    /// # Ok::<(), cicada::Error>(())
    /// ```
    pub fn transact<T, E: From<Error>>(&mut self, body: impl FnMut(&mut Txn<'_>) -> Result<T, E>) -> Result<T, E> {
        self.transact_within(TRIES, body)
    }

    /// The same with so many tries at most, one at least.
    pub fn transact_within<T, E: From<Error>>(
        &mut self,
        tries: u32,
        mut body: impl FnMut(&mut Txn<'_>) -> Result<T, E>,
    ) -> Result<T, E> {
        let mut turn = 0;
        loop {
            let refused = match self.attempt(&mut body)? {
                Ok(value) => {
                    self.count_one();
                    return Ok(value);
                }
                Err(refused) => refused,
            };
            self.collect().map_err(E::from)?;
            if let Error::Conflict { stamp, .. } = refused {
                self.hear(stamp).map_err(E::from)?;
            }
            turn += 1;
            if turn >= tries {
                return Err(refused.into());
            }
            pause(turn);
        }
    }

    // One try: what the body gave, or why another try is due.
    fn attempt<T, E: From<Error>>(
        &mut self,
        body: &mut impl FnMut(&mut Txn<'_>) -> Result<T, E>,
    ) -> Result<Result<T, Error>, E> {
        // SAFETY: as for each call of a seat.
        self.answer(unsafe { sys::cicada_begin(self.at_connection(), reading()) })?;
        let mut txn = Txn::open(self);
        let answer = body(&mut txn);
        if let Some(fault) = txn.fault() {
            txn.abort();
            return if fault.is_passing() {
                Ok(Err(fault))
            } else {
                // (a body that has gone on behind a fault is not let through)
                answer.and(Err(fault.into())).map(Ok)
            };
        }
        match answer {
            Ok(value) => match txn.commit() {
                Ok(()) => Ok(Ok(value)),
                Err(fault) if fault.is_passing() => Ok(Err(fault)),
                Err(fault) => Err(fault.into()),
            },
            Err(error) => {
                txn.abort();
                Err(error)
            }
        }
    }

    // Collects now and then.
    fn count_one(&mut self) {
        if self.since().fetch_add(1, Ordering::Relaxed) + 1 >= BETWEEN_COLLECTIONS {
            self.since().store(0, Ordering::Relaxed);
            // (nothing is open, so it is done)
            let _collected = self.collect();
        }
    }

    /// Runs the body in a snapshot: all rows as they were at one moment. Others are never in its way. It may be older than commits that have
    /// returned, also of this seat.
    ///
    /// ```
    /// # use cicada::{Engine, Error, Read};
    /// # let mut seats = Engine::open(1, 100)?.into_seats();
    /// # let seat = &mut seats[0];
    /// seat.transact(|txn| txn.put(0, 1, &[5, 0, 0, 0, 0, 0]))?;
    /// seat.rest()?;
    /// let sum = seat.snapshot(|view| {
    ///     view.rows::<[u64; 6]>(0, ..).map(|row| row.map(|(_key, columns)| columns[0])).sum::<Result<u64, Error>>()
    /// })?;
    /// assert_eq!(sum, 5);
    /// # Ok::<(), Error>(())
    /// ```
    pub fn snapshot<T, E: From<Error>>(&mut self, body: impl FnOnce(&mut View<'_>) -> Result<T, E>) -> Result<T, E> {
        // SAFETY: as for each call of a seat.
        self.answer(unsafe { sys::cicada_snapshot(self.at_connection()) })?;
        let mut view = View::open(self);
        let answer = body(&mut view);
        drop(view);
        answer
    }

    /// Takes back versions that nobody can read any more; how many places were freed. `transact` does it after each 64 transactions.
    pub fn collect(&mut self) -> Result<u32, Error> {
        let mut places = 0;
        // SAFETY: as for each call of a seat.
        self.answer(unsafe { sys::cicada_collect(self.at_connection(), &mut places) })?;
        Ok(places)
    }

    /// What begins at this seat from now on is above this stamp, and sees what has committed at it.
    pub fn hear(&mut self, stamp: u64) -> Result<(), Error> {
        // SAFETY: as for each call of a seat.
        self.answer(unsafe { sys::cicada_hear(self.at_connection(), stamp) }).map(drop)
    }

    /// What a seat that makes no other call has to do a few times a second, so that the others need not wait for it; its stamp.
    pub fn rest(&mut self) -> Result<u64, Error> {
        let mut stamp = 0;
        // SAFETY: as for each call of a seat.
        self.answer(unsafe { sys::cicada_rest(self.at_connection(), reading(), &mut stamp) })?;
        Ok(stamp)
    }

    /// What this seat has done, and what it has.
    pub fn counts(&mut self) -> Result<Counts, Error> {
        let mut counts = sys::Counts::default();
        // SAFETY: as for each call of a seat.
        self.answer(unsafe { sys::cicada_count(self.at_connection(), &mut counts) })?;
        Ok(Counts { commits: counts.commits, refusals: counts.refusals, records: counts.records, queued: counts.queued })
    }
}
