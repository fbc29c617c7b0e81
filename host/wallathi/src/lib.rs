//! A store of messages with fields, in rising order of their IDs, with consumer groups.
//!
//! The code behind it is proved: each command answers as a plain ledger would, for any bytes of store and state. This crate is a safe
//! Rust face of its C library (`host/include/wallathi.h`); start with [`Owned`]. A command that is refused says why by a [`Refusal`]
//! and has changed nothing.
//!
//! The crate does without the standard library. The feature `alloc`, on by default, has what owns memory: [`Owned`], [`Slip`],
//! [`Messages`] and the commands that answer vectors. Without it a store lives in [`Borrowed`] bytes, messages are [`SlipRef`]s, and
//! answers go to lent bytes ([`Store::read_into`], [`Store::field_into`], [`Store::group_read_many_into`], [`Store::save_into`],
//! [`reply_message_into`]). The library is compiled for x86-64 Linux.
//!
//! For clients of the Redis protocol there are replies in RESP2: [`Store::range_reply`], [`integer_reply`], [`error_reply`], and a strict
//! reader of them, [`read_reply`].

#![no_std]
#![deny(unsafe_code, missing_docs)]
#![warn(clippy::pedantic)]

#[cfg(feature = "alloc")]
extern crate alloc;

#[allow(unsafe_code)]
pub mod raw;

mod id;
mod refusal;
mod reply;
mod slip;
mod store;

pub use id::{Id, NotAnId, ID_BYTES};
pub use raw::STATE_BYTES;
pub use refusal::Refusal;
pub use reply::{
    error_reply, integer_reply, read_reply, reply_message_into, Reply, LARGEST_INTEGER_REPLY,
    LAST_ERROR_REPLY, LONGEST_NUMBER_REPLY,
};
pub use slip::{Pairs, SlipRef, LONGEST_STRING, MOST_PAIRS};
pub use store::{
    Borrowed, Integers, Pending, PendingEntries, Report, Store, LARGEST_BATCH, LONGEST_SLIP,
    LONGEST_SNAPSHOT, MOST_SLOTS, SLOT_BYTES,
};

#[cfg(feature = "alloc")]
pub use reply::reply_message;
#[cfg(feature = "alloc")]
pub use slip::Slip;
#[cfg(feature = "alloc")]
pub use store::{Messages, Owned};
