//! The gate's calls with its accounts and head as one value, as C has them too.
//!
//! Some 14 KB are copied into each call and back. [`Gate`](crate::Gate) lends its accounts instead, and comes here for
//! settlements alone. Each function puts the new gate in the place of the old one and gives the code of document 01;
//! those with a buffer also give how many bytes of it they wrote.
use super::{Wrote, declared, types};
use crate::{Date, Day, GateValue, Number, Table};

fn replied(reply: types::Reply, gate: &mut GateValue) -> Wrote {
    *gate = reply.gate;
    (reply.code, reply.size)
}

/// Opens an account, as [`Gate::open_account`](crate::Gate::open_account) does.
pub fn open_account(table: &Table, gate: &mut GateValue, number: Number, kind: u64) -> u64 {
    let reply = call!(roosteryore_open_account, as_ptr, table, *gate, number, kind);
    replied(reply, gate).0
}

/// Draws kopecks from an account, as [`Gate::draw_funds`](crate::Gate::draw_funds) does.
pub fn draw_funds(table: &Table, gate: &mut GateValue, number: Number, kind: u64, kopecks: u64) -> u64 {
    let reply = call!(roosteryore_draw_funds, as_ptr, table, *gate, number, kind, kopecks);
    replied(reply, gate).0
}

/// Takes a request and answers it, as [`Gate::deliver`](crate::Gate::deliver) does.
pub fn deliver(
    table: &mut Table,
    gate: &mut GateValue,
    clock: &Date,
    parameters: &[u8],
    out: &mut [u8],
) -> (u64, usize) {
    let reply = call!(
        roosteryore_deliver,
        as_mut_ptr,
        table,
        *gate,
        clock,
        parameters.as_ptr(),
        parameters.len(),
        out.as_mut_ptr(),
        out.len()
    );
    replied(reply, gate)
}

/// Settles a day by its registry, as [`Gate::settle`](crate::Gate::settle) does.
pub fn settle(
    table: &mut Table,
    gate: &mut GateValue,
    clock: &Date,
    day: Day,
    registry: &[u8],
    out: &mut [u8],
) -> (u64, usize) {
    let reply = call!(
        roosteryore_settle,
        as_mut_ptr,
        table,
        *gate,
        clock,
        day,
        registry.as_ptr(),
        registry.len(),
        out.as_mut_ptr(),
        out.len()
    );
    replied(reply, gate)
}
