"""Serializable transactions over tables in memory, by a library whose every call is proved.

There are eight tables, 0 to 7, of rows of six numbers under keys, all of 64 bits. An engine has seats; a seat is what one thread works at.

    import cicada

    with cicada.Engine(seats=1, rows=1000) as engine:
        seat = engine.seats[0]
        with seat.transaction() as txn:
            txn.put(0, 7, (1, 2, 3))
        assert seat.transact(lambda txn: txn.get(0, 7)) == (1, 2, 3, 0, 0, 0)

The library is looked for where CICADA_LIBRARY says, beside this file, and where the system has libraries. Python 3.9 and later.
"""
from __future__ import annotations

import contextlib
import ctypes
import os
import threading
import time
from collections.abc import Callable, Iterable, Iterator, Sequence
from types import TracebackType
from typing import Any, NamedTuple, Optional, TypeVar

__all__ = [
    "BusyError", "CicadaError", "ClockOutError", "ConflictError", "Counts", "Engine", "MisusedError", "OutOfMemoryError", "OutOfRangeError", "PlacesOutError",
    "Reader", "RecordsOutError", "Seat", "Transaction", "View", "add", "get", "put", "remove", "subtract", "version",
]

TABLES = 8
COLUMNS = 6
MOST_ROWS = 195_888
GREATEST = 2**64 - 1
_PAGE = 512
_BETWEEN_COLLECTIONS = 64

Row = tuple[int, ...]
Answer = TypeVar("Answer")


class Counts(NamedTuple):
    """What a seat has done, and what it has."""

    commits: int
    """Transactions that committed."""
    refusals: int
    """Tries that were refused."""
    records: int
    """Records that the seat has at hand for new rows: it takes more where it has fewer than 12, and keeps up to 32 between transactions."""
    queued: int
    """Versions that it has committed, and below which `collect` has not come yet: they hold places."""


# ---- errors


class CicadaError(Exception):
    """A call was refused. Each status has a class of its own; `status` is its number."""

    status: Optional[int] = None


class ConflictError(CicadaError):
    """Another transaction is in the way: `transact` begins again. `stamp` is to be heard, and is in the way at `record`."""

    status = 2
    stamp = 0
    record = 0


class PlacesOutError(CicadaError):
    """No place is left for a version: `transact` collects and begins again. Where it stays so, open with more spare places."""

    status = 3


class RecordsOutError(CicadaError):
    """No record is left for a row, at any seat."""

    status = 4


class OutOfMemoryError(CicadaError, MemoryError):
    """No memory is left."""

    status = 5


class ClockOutError(CicadaError):
    """The clock of the seat has come to its end."""

    status = 6


class OutOfRangeError(CicadaError, ValueError):
    """A number is out of its range. Nothing has changed."""

    status = 7


class MisusedError(CicadaError):
    """What is open at the seat does not fit the call, or it is closed. Nothing has changed."""

    status = 8


class BusyError(CicadaError):
    """Another thread is in this seat. Nothing has changed."""

    status = 9


_ERRORS = (ConflictError, PlacesOutError, RecordsOutError, OutOfMemoryError, ClockOutError, OutOfRangeError, MisusedError, BusyError)
_OF_STATUS = {it.status: it for it in _ERRORS}


# ---- the library, as cicada.h declares it

_U32, _U64, _SIZE = ctypes.c_uint32, ctypes.c_uint64, ctypes.c_size_t
_Columns = _U64 * COLUMNS


class _Connection(ctypes.Structure):
    _fields_ = [("content", _U64 * 8)]


class _Pool(ctypes.Structure):
    _fields_ = [("content", _U64 * 72)]


class _Counts(ctypes.Structure):
    _fields_ = [("commits", _U64), ("refusals", _U64), ("records", _U64), ("queued", _U64)]


class _Operation(ctypes.Structure):
    _fields_ = [("kind", _U32), ("table", _U32), ("key", _U64), ("row", _Columns), ("status", ctypes.c_int32), ("reserved", _U32)]


def _calls() -> dict[str, list[Any]]:
    at, u64, u32, size = ctypes.c_void_p, ctypes.POINTER(_U64), ctypes.POINTER(_U32), ctypes.POINTER(_SIZE)
    return {
        "open": [_U32, _U32, at, _SIZE],
        "close": [at],
        "begin": [at, _U64],
        "commit": [at, u64, u32],
        "abort": [at],
        "conflict": [at, u64, u32],
        "snapshot": [at],
        "finish": [at, u64],
        "get": [at, _U32, _U64, u64],
        "list": [at, _U32, _U64, _U64, _SIZE, u64, ctypes.POINTER(_Columns), size, size],
        "find": [at, _U32, _U32, _U64, _U64, _SIZE, u64, ctypes.POINTER(_Columns), size, size],
        "declare_index": [at, _U32, _U32],
        "put": [at, _U32, _U64, u64],
        "remove": [at, _U32, _U64],
        "apply": [at, ctypes.POINTER(_Operation), _SIZE, size],
        "collect": [at, u32],
        "hear": [at, _U64],
        "rest": [at, _U64, u64],
        "count": [at, ctypes.POINTER(_Counts)],
        "share": [at, _SIZE, at],
        "take": [at, ctypes.POINTER(at)],
        "give_back": [at, at],
        "close_pool": [at],
    }


def _load() -> ctypes.CDLL:
    beside = os.path.join(os.path.dirname(os.path.abspath(__file__)), "libcicada.so")
    path = os.environ.get("CICADA_LIBRARY") or (beside if os.path.exists(beside) else "libcicada.so")
    library = ctypes.CDLL(path)
    for name, types in _calls().items():
        call = getattr(library, f"cicada_{name}")
        call.argtypes, call.restype = types, ctypes.c_int32
    library.cicada_status_text.argtypes, library.cicada_status_text.restype = [ctypes.c_int32], ctypes.c_char_p
    library.cicada_version.argtypes, library.cicada_version.restype = [], ctypes.c_char_p
    return library


_library = _load()
(_open, _close, _begin, _commit, _abort, _conflict, _snapshot, _finish, _get, _list, _find, _declare_index, _put, _remove, _apply, _collect, _hear, _rest,
 _count, _share, _take, _give_back, _close_pool) = (getattr(_library, f"cicada_{name}") for name in _calls())


# One clock for all seats, in nanoseconds: the engine takes no reading above 2^55, which are 416 days.
_BEGAN = time.monotonic_ns()


def _reading() -> int:
    return time.monotonic_ns() - _BEGAN


# What a transaction or a snapshot stands at once it has ended: a connection that was never opened, at which each call is misuse.
_nowhere = ctypes.create_string_buffer(ctypes.sizeof(_Connection))
_NOWHERE = ctypes.addressof(_nowhere)


def version() -> str:
    """The version of the library; it ends in "+unproved" where that was built without its proofs."""
    return _library.cicada_version().decode()


def _error(status: int, at: Optional[int] = None) -> CicadaError:
    error = _OF_STATUS.get(status, CicadaError)(_library.cicada_status_text(status).decode())
    error.status = status
    if isinstance(error, ConflictError) and at is not None:
        stamp, record = _U64(), _U32()
        _conflict(at, stamp, record)
        error.stamp, error.record = stamp.value, record.value
    return error


def _number(value: int, most: int, what: str) -> int:
    """The number itself, if it is one from 0 to the greatest one; ctypes would wrap it."""
    if not isinstance(value, int):
        raise TypeError(f"{what} is a number, and not {type(value).__name__}")
    if not 0 <= value <= most:
        raise OutOfRangeError(f"{what} is a number from 0 to {most}, and not {value}")
    return value


def _table(table: int) -> int:
    return _number(table, TABLES - 1, "a table")


def _key(key: int) -> int:
    return _number(key, GREATEST, "a key, or an end of a range,")


def _column(column: int) -> int:
    """The number of a column with an index; 0, which is none, is refused by the library."""
    return _number(column, COLUMNS, "a column with an index")


def _columns(row: Sequence[int]) -> Any:
    """The columns of a row; those that are left out are 0."""
    if len(row) > COLUMNS:
        raise OutOfRangeError(f"a row has {COLUMNS} columns at most, and not {len(row)}")
    return _Columns(*[_number(it, GREATEST, "a column") for it in row])


# ---- batches


class Operation:
    """An operation of a batch. After `apply` has done it, `found` says whether there was a row, and `row` has the one that is there."""

    __slots__ = ("kind", "table", "key", "row", "found")

    def __init__(self, kind: int, table: int, key: int, row: Sequence[int] = ()) -> None:
        self.kind, self.table, self.key = kind, _table(table), _key(key)
        self.row: Optional[Row] = tuple(_columns(row))
        self.found = False


def get(table: int, key: int) -> Operation:
    """Reads a row."""
    return Operation(0, table, key)


def put(table: int, key: int, row: Sequence[int]) -> Operation:
    """Sets a row."""
    return Operation(1, table, key, row)


def remove(table: int, key: int) -> Operation:
    """Takes a row out."""
    return Operation(2, table, key)


def add(table: int, key: int, row: Sequence[int]) -> Operation:
    """Adds to each column of a row."""
    return Operation(3, table, key, row)


def subtract(table: int, key: int, row: Sequence[int]) -> Operation:
    """Takes from each column of a row."""
    return Operation(4, table, key, row)


# ---- transactions and snapshots


class Reader:
    """What can be read: a transaction or a snapshot."""

    def __init__(self, seat: Seat) -> None:
        self._seat = seat
        self._at = seat._at

    def _refuse(self, status: int) -> CicadaError:
        return _error(status, self._at)

    def get(self, table: int, key: int) -> Optional[Row]:
        """The row of a table at a key; None where there is none."""
        row = _Columns()
        status = _get(self._at, _table(table), _key(key), row)
        if status > 1:
            raise self._refuse(status)
        return None if status else tuple(row)

    def rows(self, table: int, low: int = 0, high: int = GREATEST) -> Iterator[tuple[int, Row]]:
        """The rows of a table with keys from `low` to `high`, both included, by rising key, read as they are asked for."""
        return self._pages(_table(table), _key(low), _key(high))

    def _pages(self, table: int, low: int, high: int) -> Iterator[tuple[int, Row]]:
        keys, rows, listed = (_U64 * _PAGE)(), (_Columns * _PAGE)(), _SIZE()
        while low <= high:
            status = _list(self._at, table, low, high, _PAGE, keys, rows, listed, None)
            if status:
                raise self._refuse(status)
            count = listed.value
            page = [(keys[i], tuple(rows[i])) for i in range(count)]
            yield from page
            if count < _PAGE:
                return
            low = page[-1][0] + 1

    def list(self, table: int, low: int = 0, high: int = GREATEST) -> list[tuple[int, Row]]:
        """All of these rows."""
        return [*self.rows(table, low, high)]

    def count(self, table: int, low: int = 0, high: int = GREATEST) -> int:
        """How many rows of a table have such keys."""
        listed, there = _SIZE(), _SIZE()
        status = _list(self._at, _table(table), _key(low), _key(high), 0, None, None, listed, there)
        if status:
            raise self._refuse(status)
        return there.value

    def find(self, table: int, column: int, low: int = 0, high: int = GREATEST, most: Optional[int] = None) -> Optional[list[tuple[int, Row]]]:
        """The rows of a table whose column (1 to 6) lies from `low` to `high`, both included, by rising column and then by rising key, `most` at most;
        None where the table has no index on that column."""
        where = (_table(table), _column(column), _key(low), _key(high))
        listed, there = _SIZE(), _SIZE()
        room = 0 if most is None else min(_number(most, GREATEST, "most"), MOST_ROWS)
        if most is None:
            status = _find(self._at, *where, 0, None, None, listed, there)
            room = there.value
        else:
            status = 0
        keys, rows = (_U64 * room)(), (_Columns * room)()
        if not status:
            status = _find(self._at, *where, room, keys, rows, listed, None)
        if status > 1:
            raise self._refuse(status)
        return None if status else [(keys[i], tuple(rows[i])) for i in range(listed.value)]

    def apply(self, operations: Iterable[Operation]) -> None:
        """Does the operations of a batch in their order, in one call; an error where one is refused, and none behind it is done."""
        batch = [*operations]
        given = (_Operation * len(batch))(*[(it.kind, it.table, it.key, tuple(it.row or ()), 0, 0) for it in batch])
        done = _SIZE()
        status = _apply(self._at, given, len(batch), done)
        for operation, it in zip(batch[: done.value], given):
            operation.found = it.status == 0
            if operation.kind != 1:
                operation.row = tuple(it.row) if operation.found and operation.kind != 2 else None
        if status:
            raise self._refuse(status)


class View(Reader):
    """An open snapshot: all rows as they were at one moment. `stamp` is known when it has ended."""

    stamp: Optional[int] = None


class Transaction(Reader):
    """An open transaction: it sees at once what it has written, and the others once it commits. `stamp` is known then."""

    stamp: Optional[int] = None
    _fault: Optional[CicadaError] = None

    def _refuse(self, status: int) -> CicadaError:
        error = _error(status, self._at)
        # (these change nothing; each other fault has ended the transaction)
        if not isinstance(error, (OutOfRangeError, MisusedError, BusyError)):
            self._fault = self._fault or error
        return error

    def put(self, table: int, key: int, row: Sequence[int]) -> None:
        """Sets the row of a table at a key; columns that are left out are 0."""
        status = _put(self._at, _table(table), _key(key), _columns(row))
        if status:
            raise self._refuse(status)

    def declare_index(self, table: int, column: int) -> bool:
        """Declares an index of a table on a column (1 to 6), while the table has no row and no index; whether it did."""
        status = _declare_index(self._at, _table(table), _column(column))
        if status > 1:
            raise self._refuse(status)
        return not status

    def remove(self, table: int, key: int) -> bool:
        """Takes the row of a table at a key out; whether there was one."""
        status = _remove(self._at, _table(table), _key(key))
        if status > 1:
            raise self._refuse(status)
        return not status


class _Opened:
    """A transaction as a context: it commits at the end of the body, and an exception in the body ends it without a trace."""

    def __init__(self, seat: Seat) -> None:
        self._seat = seat

    def __enter__(self) -> Transaction:
        self._seat._check(_begin(self._seat._at, _reading()))
        self._txn = Transaction(self._seat)
        return self._txn

    def __exit__(self, kind: Optional[type[BaseException]], error: Optional[BaseException], trace: Optional[TracebackType]) -> None:
        txn, at = self._txn, self._seat._at
        txn._at = _NOWHERE
        if kind is not None or txn._fault is not None:
            _abort(at)
            if kind is None and txn._fault is not None:
                # (a body that has gone on behind a fault is not let through)
                raise txn._fault
            return
        stamp = _U64()
        self._seat._check(_commit(at, stamp, None))
        txn.stamp = stamp.value
        self._seat._count_one()


class _Looking:
    """A snapshot as a context."""

    def __init__(self, seat: Seat) -> None:
        self._seat = seat

    def __enter__(self) -> View:
        self._seat._check(_snapshot(self._seat._at))
        self._view = View(self._seat)
        return self._view

    def __exit__(self, *_: object) -> None:
        stamp = _U64()
        self._view._at = _NOWHERE
        if not _finish(self._seat._at, stamp):
            self._view.stamp = stamp.value


# ---- seats and engines


class Seat:
    """What one thread works at, one call at a time. Threads let others run while they are in a call."""

    def __init__(self, engine: Engine, at: int) -> None:
        self._engine, self._at, self._since = engine, at, 0

    def _check(self, status: int) -> None:
        if status:
            raise _error(status, self._at)

    def _count_one(self) -> None:
        self._since += 1
        if self._since >= _BETWEEN_COLLECTIONS:
            self._since = 0
            _collect(self._at, None)

    def transaction(self) -> _Opened:
        """`with seat.transaction() as txn:` commits at the end of the body, and ends without a trace where an exception leaves it. Where others are in
        the way it raises ConflictError; `transact` is the one that begins again."""
        return _Opened(self)

    def transact(self, body: Callable[[Transaction], Answer], tries: int = 10_000) -> Answer:
        """What the body answers, run in a transaction that commits; so again where others were in the way, so many times at most. The body may run
        several times, so what it does beside its transaction it may do several times."""
        turn = 0
        while True:
            opened = self.transaction()
            try:
                with opened as txn:
                    answer = body(txn)
                return answer
            except (ConflictError, PlacesOutError) as error:
                refused = error
            except BaseException:
                # (a body may hide the conflict that it met in an error of its own; then that is what counts)
                fault = getattr(getattr(opened, "_txn", None), "_fault", None)
                if not isinstance(fault, (ConflictError, PlacesOutError)):
                    raise
                refused = fault
            self.collect()
            if isinstance(refused, ConflictError) and refused.stamp:
                self.hear(refused.stamp)
            turn += 1
            if turn >= tries:
                raise refused
            time.sleep(0 if turn < 4 else min(2 ** (turn - 4), 1000) / 1_000_000)

    def snapshot(self) -> _Looking:
        """`with seat.snapshot() as view:` reads all rows as they were at one moment. It may be older than commits that have returned."""
        return _Looking(self)

    def collect(self) -> int:
        """Takes back versions that nobody can read any more; how many places were freed. It is done after each 64 transactions."""
        places = _U32()
        self._check(_collect(self._at, places))
        return places.value

    def hear(self, stamp: int) -> None:
        """What begins at this seat from now on is above this stamp, and sees what has committed at it."""
        self._check(_hear(self._at, _number(stamp, GREATEST, "a stamp")))

    def rest(self) -> int:
        """What a seat that makes no other call has to do a few times a second, so that the others need not wait for it; its stamp."""
        stamp = _U64()
        self._check(_rest(self._at, _reading(), stamp))
        return stamp.value

    def counts(self) -> Counts:
        """What this seat has done, and what it has."""
        counts = _Counts()
        self._check(_count(self._at, counts))
        return Counts(counts.commits, counts.refusals, counts.records, counts.queued)

    def close(self) -> None:
        """Ends what is open, and the seat; each later call of it raises MisusedError. It may be closed again."""
        self._check(_close(self._at))

    def __enter__(self) -> Seat:
        return self

    def __exit__(self, *_: object) -> None:
        self.close()


class Engine:
    """An engine of eight empty tables: `seats` (1 to 64), records for `rows` (0 to 195,888 less 32 for each seat; two a row, where rows come and go up to
    four, six with an index), and `spare` places for versions (up to 262,144; 0: as many as is advised). The seats of an engine that is let go are closed."""

    def __init__(self, seats: int = 1, rows: int = 10_000, spare: int = 0) -> None:
        self.seats: list[Seat] = []
        _number(rows, 2**32 - 1, "rows")
        _number(spare, 2**32 - 1, "spare")
        if not 1 <= _number(seats, 64, "seats"):
            raise OutOfRangeError("seats is a number from 1 to 64, and not 0")
        size = ctypes.sizeof(_Connection)
        self._memory = ctypes.create_string_buffer(size * (seats + 1) + ctypes.sizeof(_Pool))
        self._first = (ctypes.addressof(self._memory) + size - 1) // size * size
        self._pool: Optional[int] = None
        self._sharing = threading.RLock()
        status = _open(rows, spare, self._first, seats)
        if status:
            raise _error(status)
        self.seats = [Seat(self, self._first + size * i) for i in range(seats)]

    def share(self) -> None:
        """Lets the seats go round from now on: each is used by who has taken it, and no longer by way of `seats`. MisusedError: something is open at one
        of them, or one is closed, or they go round already."""
        with self._sharing:
            if self._pool is not None:
                raise _error(MisusedError.status)
            pool = self._first + ctypes.sizeof(_Connection) * len(self.seats)
            status = _share(self._first, len(self.seats), pool)
            if status:
                raise _error(status)
            self._pool = pool

    @contextlib.contextmanager
    def seat(self) -> Iterator[Seat]:
        """`with engine.seat() as seat:` takes the seat that has rested longest, and gives it back at the end of the body. It sees all that was committed at
        seats that had been given back. BusyError: all are taken."""
        with self._sharing:
            if self._pool is None:
                self.share()
        at = ctypes.c_void_p()
        status = _take(self._pool, at)
        if status:
            raise _error(status)
        seat = self.seats[((at.value or 0) - self._first) // ctypes.sizeof(_Connection)]
        try:
            yield seat
        finally:
            # (one that was closed in the body is not given back)
            _give_back(self._pool, seat._at)

    def _close_all(self) -> int:
        """Closes the seats that are taken, or go round no more, and then those that rest; the last status that is none of these."""
        statuses = [_close(seat._at) for seat in self.seats]
        if self._pool is not None:
            statuses = [status for status in statuses if status != MisusedError.status] + [_close_pool(self._pool)]
        return max([0, *statuses])

    def close(self) -> None:
        """Closes all seats. It may be closed again."""
        status = self._close_all()
        if status:
            raise _error(status)

    def __enter__(self) -> Engine:
        return self

    def __exit__(self, *_: object) -> None:
        self.close()

    def __del__(self) -> None:
        if self.seats:
            self._close_all()
