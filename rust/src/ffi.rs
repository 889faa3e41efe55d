//! The functions of the library, each behind a safe one that takes slices. No other module has unsafe code.
//!
//! What the header asks of a host, the borrow checker sees to: a slice has the octets or words that its length says, an empty one has an address that
//! is not null, no area lent to be changed overlaps another, and no other thread writes to a lent area. The link goes in and comes back by value.
use crate::raw::{Limits, Link, Row, Settings};

/// A number and the link.
#[repr(C)]
pub struct Answer {
    pub link: Link,
    pub number: u8,
}

/// The same with how many records were written or octets put out.
#[repr(C)]
pub struct Counted {
    pub count: usize,
    pub link: Link,
    pub number: u8,
}

/// The part of the pool that holds a unit.
#[repr(C)]
pub struct Part {
    pub offset: usize,
    pub length: usize,
    pub number: u8,
}

#[rustfmt::skip] // One line for each function, to be held beside the header.
extern "C" {
    fn pj_new_value() -> Link;
    fn pj_open_value(link: Link, settings: Settings, pool: *mut u8, octets: usize, descriptors: *mut u16, words: usize) -> Answer;
    fn pj_wipe_value(pool: *mut u8, octets: usize, descriptors: *mut u16, words: usize) -> Link;
    fn pj_receive_value(link: Link, line: *const u8, n: usize, pool: *mut u8, octets: usize, descriptors: *mut u16, words: usize, records: *mut u8, room: usize) -> Counted;
    fn pj_receive_octets_value(link: Link, line: *const u8, n: usize, pool: *mut u8, octets: usize, descriptors: *mut u16, words: usize, records: *mut u8, room: usize) -> Counted;
    fn pj_command_value(link: Link, command: u16) -> Answer;
    fn pj_clear_value(link: Link, chosen: u16) -> Answer;
    fn pj_send_value(link: Link, content: *const u8, n: usize, output: *mut u8, room: usize) -> Counted;
    fn pj_fill_value(link: Link, output: *mut u8, room: usize) -> Counted;
    fn pj_read_number_value(link: Link, pool: *const u8, octets: usize, descriptors: *const u16, words: usize, slot: u16) -> u8;
    fn pj_read_value(link: Link, pool: *const u8, octets: usize, descriptors: *const u16, words: usize, slot: u16) -> Part;
    fn pj_hand_back_value(link: Link, pool: *mut u8, octets: usize, descriptors: *mut u16, words: usize, slot: u16) -> Answer;
    fn pj_row_value(number: u16) -> Row;
    fn pj_limits_value() -> Limits;
}

pub fn new() -> Link {
    // SAFETY: takes no argument and ends on every call.
    unsafe { pj_new_value() }
}

pub fn open(link: &Link, settings: &Settings, pool: &mut [u8], descriptors: &mut [u16]) -> Answer {
    let (octets, words) = (pool.len(), descriptors.len());
    // SAFETY: each pointer and length are those of one slice, and no two of the slices overlap.
    unsafe { pj_open_value(*link, *settings, pool.as_mut_ptr(), octets, descriptors.as_mut_ptr(), words) }
}

pub fn wipe(pool: &mut [u8], descriptors: &mut [u16]) -> Link {
    // SAFETY: each pointer and length are those of one slice, and no two of the slices overlap.
    unsafe { pj_wipe_value(pool.as_mut_ptr(), pool.len(), descriptors.as_mut_ptr(), descriptors.len()) }
}

pub fn receive(link: &Link, line: &[u8], pool: &mut [u8], descriptors: &mut [u16], records: &mut [u8]) -> Counted {
    let (n, octets, words, room) = (line.len(), pool.len(), descriptors.len(), records.len());
    let (pool, descriptors, records) = (pool.as_mut_ptr(), descriptors.as_mut_ptr(), records.as_mut_ptr());
    // SAFETY: each pointer and length are those of one slice, and no two of the slices overlap.
    unsafe { pj_receive_value(*link, line.as_ptr(), n, pool, octets, descriptors, words, records, room) }
}

pub fn receive_octets(link: &Link, line: &[u8], pool: &mut [u8], descriptors: &mut [u16], records: &mut [u8]) -> Counted {
    let (n, octets, words, room) = (line.len(), pool.len(), descriptors.len(), records.len());
    let (pool, descriptors, records) = (pool.as_mut_ptr(), descriptors.as_mut_ptr(), records.as_mut_ptr());
    // SAFETY: each pointer and length are those of one slice, and no two of the slices overlap.
    unsafe { pj_receive_octets_value(*link, line.as_ptr(), n, pool, octets, descriptors, words, records, room) }
}

pub fn command(link: &Link, command: u16) -> Answer {
    // SAFETY: takes values only and ends on all of them.
    unsafe { pj_command_value(*link, command) }
}

pub fn clear(link: &Link, chosen: u16) -> Answer {
    // SAFETY: takes values only and ends on all of them.
    unsafe { pj_clear_value(*link, chosen) }
}

pub fn send(link: &Link, content: &[u8], output: &mut [u8]) -> Counted {
    // SAFETY: each pointer and length are those of one slice, and the slices do not overlap.
    unsafe { pj_send_value(*link, content.as_ptr(), content.len(), output.as_mut_ptr(), output.len()) }
}

pub fn fill(link: &Link, output: &mut [u8]) -> Counted {
    // SAFETY: the pointer and the length are those of one slice.
    unsafe { pj_fill_value(*link, output.as_mut_ptr(), output.len()) }
}

pub fn read_number(link: &Link, pool: &[u8], descriptors: &[u16], slot: u16) -> u8 {
    // SAFETY: each pointer and length are those of one slice, and the library only reads them.
    unsafe { pj_read_number_value(*link, pool.as_ptr(), pool.len(), descriptors.as_ptr(), descriptors.len(), slot) }
}

pub fn read(link: &Link, pool: &[u8], descriptors: &[u16], slot: u16) -> Part {
    // SAFETY: each pointer and length are those of one slice, and the library only reads them.
    unsafe { pj_read_value(*link, pool.as_ptr(), pool.len(), descriptors.as_ptr(), descriptors.len(), slot) }
}

pub fn hand_back(link: &Link, pool: &mut [u8], descriptors: &mut [u16], slot: u16) -> Answer {
    let (octets, words) = (pool.len(), descriptors.len());
    // SAFETY: each pointer and length are those of one slice, and no two of the slices overlap.
    unsafe { pj_hand_back_value(*link, pool.as_mut_ptr(), octets, descriptors.as_mut_ptr(), words, slot) }
}

pub fn row(number: u16) -> Row {
    // SAFETY: takes a value only and ends on all of them.
    unsafe { pj_row_value(number) }
}

pub fn limits() -> Limits {
    // SAFETY: takes no argument and ends on every call.
    unsafe { pj_limits_value() }
}
