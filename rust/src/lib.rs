//! One emulated SS7 signalling board, a link whose every call is proved to meet its contract. This crate makes the calls of the C library
//! `libpenguinjug.a`, which `make lib` writes, from safe code; it has no dependencies.
//!
//! A [`Link`] is booked with [`Settings`] by [`Link::open`]. Line octets go in by [`Link::receive`]; signal units come out in the slots of a pool that
//! the host lends, and a [`Record`] says what became of each. Content goes out by [`Link::send`] and [`Link::fill`]. Between bookings
//! [`Link::wipe`] clears the board.
//!
//! No call asks that a link, a number or what stands in lent memory is right: each ends on every value of them, with an answer or a [`Refusal`]. There is
//! no hidden state, so links with memory of their own can be used by many threads at once.
//!
//! What one board sends, another receives; its filter drops the repeat of the fill-in unit:
//!
//! ```
//! use penguinjug::{Kind, Link, Refusal, Row, Settings, OUTPUT, RECORDS, SLOT};
//!
//! let mut sender = Link::new();
//! sender.open(&Settings::row(Row::Normal, 1), &mut [0; SLOT], &mut [0; 2])?;
//!
//! let (mut pool, mut descriptors) = ([0; 4 * SLOT], [0; 8]);
//! let mut receiver = Link::new();
//! receiver.open(&Settings { filter: true, ..Settings::row(Row::Normal, 4) }, &mut pool, &mut descriptors)?;
//!
//! let (mut output, mut area) = ([0; OUTPUT], [0; RECORDS * OUTPUT]);
//! let mut kinds = Vec::new();
//! for turn in 0..4 {
//!     let line = if turn == 0 { sender.send(&[0x1f, 2, 3, 4], &mut output)? } else { sender.fill(&mut output)? };
//!     let records = receiver.receive_octets(line, &mut pool, &mut descriptors, &mut area)?;
//!     kinds.extend(records.map(|record| record.kind));
//! }
//! assert!(matches!(kinds[..], [Kind::HandedOver(message), Kind::HandedOver(fill_in), Kind::Dropped(repeat)]
//!     if message.length == 6 && fill_in == repeat));
//! assert_eq!(receiver.read(&pool, &descriptors, 0)?[..4], [0x1f, 2, 3, 4]);
//! # Ok::<(), Refusal>(())
//! ```
#![deny(missing_docs)]
#![deny(unsafe_code)]
#![deny(unsafe_op_in_unsafe_fn)]
#![warn(clippy::undocumented_unsafe_blocks)]

mod events;
#[allow(unsafe_code)] // The calls of the library are made here alone.
mod ffi;
mod link;
mod numbers;
pub mod raw;
mod record;
mod refusal;
mod settings;

pub use events::Events;
pub use link::Link;
pub use numbers::{Command, Mode, Status};
pub use record::{Kind, Record, Records, Unit};
pub use refusal::Refusal;
pub use settings::{row_numbers, Row, Settings};

/// Octets of a slot of the pool.
pub const SLOT: usize = 280;
/// Fewest slots, K.
pub const LEAST_SLOTS: usize = 1;
/// Most slots, K.
pub const MOST_SLOTS: usize = 16;
/// Least M, the longest unit in octets, check octets included.
pub const LEAST_LONGEST: usize = 7;
/// Most M, the longest unit in octets, check octets included.
pub const MOST_LONGEST: usize = 278;
/// Least N, T, D and A.
pub const LEAST_COUNT: usize = 1;
/// Most N, T, D and A.
pub const MOST_COUNT: usize = 1024;
/// Most line octets of one receive.
pub const MOST_LINE: usize = 1024;
/// Octets of a record.
pub const RECORD: usize = 16;
/// Octets of room for the records of one line octet.
pub const RECORDS: usize = 48;
/// Octets of an output area, at least.
pub const OUTPUT: usize = 336;
/// Fewest octets of content.
pub const LEAST_CONTENT: usize = 3;
/// Most octets of content.
pub const MOST_CONTENT: usize = 276;

/// The sizes, limits, statuses and event bits as the library has them.
///
/// ```
/// assert_eq!(penguinjug::limits().sizes.slot, penguinjug::SLOT);
/// ```
pub fn limits() -> raw::Limits {
    ffi::limits()
}
