//! The calls as a host makes them.
mod board;
mod link;
mod records;
mod refusals;
