//! Document 01 read a second time, from the paper alone: the measure that the proved calls are held to.
//!
//! [`lent`] is the gate over rows that the caller lends and that are checked at each call, [`owned`] the gate that
//! keeps its own indexed state, [`book`] the agent's side, [`session`] the session program, [`load`] the lines of a rehearsal for it. Both gates share one set of rules and one settlement.

pub mod book;
pub mod date;
pub mod fields;
pub mod lent;
pub mod load;
pub mod owned;
pub mod request;
pub mod session;

mod answer;
mod asking;
mod codes;
mod entries;
mod index;
mod ledger;
mod payment;
mod registry;
mod rules;
mod scan;
mod settle;
mod table;
mod writer;
