//! A payment gate and the book of its agent, over calls that are proved in Rattle.
//!
//! A payment number counts once, and on a settled day both books show one list, whatever the net loses, delays, repeats
//! or reorders: that is a theorem about the calls behind [`Gate`] and [`Book`]. This crate hands values over to them
//! and makes their codes [`Fault`]s. What no proof covers, the boundary and the back end, is tested: against a
//! twin that shares no code with it (`rust/compare`) and in a simulation of both ends (`rust/simulate`).
//!
//! A day at both ends:
//!
//! ```
#![doc = include_str!("../examples/day.rs")]
//! ```
//!
//! # Stack
//!
//! A call takes at most [`STACK`] bytes of stack (measured: a settlement some 250 KB, a request less than 160, the
//! agent's calls less than 96). Threads of Rust have 2 MiB unless told otherwise; where they are smaller, add [`STACK`]
//! to what they need.
//!
//! # Cost
//!
//! Each call checks everything that it is lent, so its time grows with the records in use: `docs/PERFORMANCE.md` has
//! figures. Lend a table as large as the payments that it has to hold, up to [`ROWS_MOST`].

mod accounts;
mod book;
mod fault;
mod ffi;
mod gate;
mod rows;
mod values;

pub use accounts::{ACCOUNTS_MOST, Accounts};
pub use book::{Action, Book, REGISTRY_ROOM, REQUEST_ROOM};
pub use fault::Fault;
pub use ffi::{Account, BookHead, Day, GateHead, GateValue, Number, by_value};
pub use gate::{ANSWER_ROOM, Answer, Gate, REPORT_ROOM};
pub use rows::{Entries, Entry, Payment, ROWS_MOST, Record, Rows, State, Table};
pub use values::{Date, NotANumber};

/// How many bytes of stack a call takes at most, with room to spare.
pub const STACK: usize = 256 * 1024;
