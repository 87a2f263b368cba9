//! What `cicada.h` declares.
use std::ffi::c_char;

#[repr(C, align(64))]
pub struct Connection {
    pub content: [u64; 8],
}

#[repr(C, align(64))]
pub struct Pool {
    pub content: [u64; 72],
}

#[repr(C)]
#[derive(Clone, Copy, Default)]
pub struct Counts {
    pub commits: u64,
    pub refusals: u64,
    pub records: u64,
    pub queued: u64,
}

pub const OK: i32 = 0;
pub const ABSENT: i32 = 1;
pub const CONFLICT: i32 = 2;
pub const PLACES_OUT: i32 = 3;
pub const RECORDS_OUT: i32 = 4;
pub const NO_MEMORY: i32 = 5;
pub const CLOCK_OUT: i32 = 6;
pub const RANGE: i32 = 7;
pub const MISUSED: i32 = 8;
pub const BUSY: i32 = 9;

extern "C" {
    pub fn cicada_status_text(status: i32) -> *const c_char;
    pub fn cicada_version() -> *const c_char;
    pub fn cicada_open(rows: u32, spare: u32, connections: *mut Connection, count: usize) -> i32;
    pub fn cicada_close(it: *mut Connection) -> i32;
    pub fn cicada_begin(it: *mut Connection, reading: u64) -> i32;
    pub fn cicada_commit(it: *mut Connection, stamp: *mut u64, record: *mut u32) -> i32;
    pub fn cicada_abort(it: *mut Connection) -> i32;
    pub fn cicada_conflict(it: *mut Connection, stamp: *mut u64, record: *mut u32) -> i32;
    pub fn cicada_snapshot(it: *mut Connection) -> i32;
    pub fn cicada_finish(it: *mut Connection, stamp: *mut u64) -> i32;
    pub fn cicada_get(it: *mut Connection, table: u32, key: u64, row: *mut u64) -> i32;
    pub fn cicada_list(
        it: *mut Connection,
        table: u32,
        low: u64,
        high: u64,
        room: usize,
        keys: *mut u64,
        rows: *mut [u64; 6],
        listed: *mut usize,
        there: *mut usize,
    ) -> i32;
    pub fn cicada_find(
        it: *mut Connection,
        table: u32,
        column: u32,
        low: u64,
        high: u64,
        room: usize,
        keys: *mut u64,
        rows: *mut [u64; 6],
        listed: *mut usize,
        there: *mut usize,
    ) -> i32;
    pub fn cicada_declare_index(it: *mut Connection, table: u32, column: u32) -> i32;
    pub fn cicada_put(it: *mut Connection, table: u32, key: u64, row: *const u64) -> i32;
    pub fn cicada_remove(it: *mut Connection, table: u32, key: u64) -> i32;
    pub fn cicada_collect(it: *mut Connection, places: *mut u32) -> i32;
    pub fn cicada_hear(it: *mut Connection, stamp: u64) -> i32;
    pub fn cicada_rest(it: *mut Connection, reading: u64, stamp: *mut u64) -> i32;
    pub fn cicada_count(it: *mut Connection, counts: *mut Counts) -> i32;
    pub fn cicada_share(connections: *mut Connection, count: usize, pool: *mut Pool) -> i32;
    pub fn cicada_take(pool: *mut Pool, it: *mut *mut Connection) -> i32;
    pub fn cicada_give_back(pool: *mut Pool, it: *mut Connection) -> i32;
}
