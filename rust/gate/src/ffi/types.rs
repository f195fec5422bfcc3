//! The values that cross, field by field as `crates/ffi` has them.
use crate::ACCOUNTS_MOST;
use std::mem::{align_of, offset_of, size_of};

/// An account's number: the first `len` bytes count, one to thirty of them, each from `!` to `~` or a
/// letter of windows-1251 (C0 to FF, A8, B8).
#[repr(C)]
#[derive(Clone, Copy, Debug)]
pub struct Number {
    /// The bytes; those past `len` are never looked at.
    pub bytes: [u8; 30],
    /// How many of them count.
    pub len: usize,
}

/// A day of the Gregorian calendar, from 2000 to 2099. Calls refuse any other.
#[repr(C)]
#[derive(Clone, Copy, Debug, PartialEq, Eq, PartialOrd, Ord, Hash)]
pub struct Day {
    /// The year, four digits.
    pub year: u16,
    /// The month, from 1.
    pub month: u8,
    /// The day of the month, from 1.
    pub day: u8,
}

/// An account and what stands on it, in kopecks.
#[repr(C)]
#[derive(Clone, Copy, Debug, PartialEq, Eq)]
pub struct Account {
    /// The number that names it, together with the type.
    pub number: Number,
    /// The type, 0 to 999.
    pub kind: u64,
    /// Below zero where a settlement took back what was already drawn.
    pub balance: i64,
}

/// The gate's state without its accounts and its table.
#[repr(C)]
#[derive(Clone, Copy, Debug, PartialEq, Eq)]
pub struct GateHead {
    /// How many accounts are open.
    pub count: usize,
    /// The last closed day.
    pub closed: Day,
    /// How many records of the lent table are in use.
    pub used: usize,
}

/// The gate's state without its table: 14,360 bytes, which go into the calls of [`by_value`](crate::by_value) and come
/// back.
#[repr(C)]
#[derive(Clone, Copy, Debug, PartialEq, Eq)]
pub struct GateValue {
    /// The first `count` are open.
    pub accounts: [Account; ACCOUNTS_MOST],
    /// How many accounts are open.
    pub count: usize,
    /// The last closed day.
    pub closed: Day,
    /// How many records of the lent table are in use.
    pub used: usize,
}

/// The agent's state without the entries of its book.
#[repr(C)]
#[derive(Clone, Copy, Debug, PartialEq, Eq)]
pub struct BookHead {
    /// The receipt of the first entry; the others follow it without a gap.
    pub first: u64,
    /// How many entries of the lent book are in use.
    pub used: usize,
    /// The last frozen day.
    pub frozen: Day,
    /// Whether that day has its report.
    pub settled: bool,
}

/// What a call that is lent the accounts gives back: its code, the head, and how many bytes it wrote.
#[repr(C)]
pub(super) struct HeadReply {
    pub code: u64,
    pub head: GateHead,
    pub size: usize,
}

/// What a call by value gives back: its code, the gate, and how many bytes it wrote.
#[repr(C)]
pub(super) struct Reply {
    pub code: u64,
    pub gate: GateValue,
    pub size: usize,
}

/// What an acceptance gives back; the receipt is 0 with a fault.
#[repr(C)]
pub(super) struct Acceptance {
    pub code: u64,
    pub book: BookHead,
    pub receipt: u64,
}

/// What freezing a day, or taking a report, gives back.
#[repr(C)]
pub(super) struct Booked {
    pub code: u64,
    pub book: BookHead,
}

/// What a writing of the agent gives back: its code, and how many bytes it wrote.
#[repr(C)]
pub(super) struct Writing {
    pub code: u64,
    pub size: usize,
}

impl PartialEq for Number {
    /// Bytes past the length do not count.
    fn eq(&self, other: &Number) -> bool {
        self.len == other.len && self.as_bytes() == other.as_bytes()
    }
}

impl Eq for Number {}

// The layouts that include/roosteryore.h asserts too.
const _: () = {
    assert!(size_of::<Number>() == 40 && offset_of!(Number, len) == 32);
    assert!(size_of::<Day>() == 4 && align_of::<Day>() == 2);
    assert!(offset_of!(Day, month) == 2 && offset_of!(Day, day) == 3);
    assert!(size_of::<Account>() == 56);
    assert!(offset_of!(Account, kind) == 40 && offset_of!(Account, balance) == 48);
    assert!(size_of::<GateHead>() == 24 && offset_of!(GateHead, count) == 0);
    assert!(offset_of!(GateHead, closed) == 8 && offset_of!(GateHead, used) == 16);
    assert!(size_of::<GateValue>() == 14_360 && offset_of!(GateValue, count) == 14_336);
    assert!(offset_of!(GateValue, closed) == 14_344 && offset_of!(GateValue, used) == 14_352);
    assert!(size_of::<BookHead>() == 24 && offset_of!(BookHead, used) == 8);
    assert!(offset_of!(BookHead, frozen) == 16 && offset_of!(BookHead, settled) == 20);
    assert!(size_of::<HeadReply>() == 40 && offset_of!(HeadReply, head) == 8);
    assert!(offset_of!(HeadReply, size) == 32);
    assert!(size_of::<Reply>() == 14_376 && offset_of!(Reply, size) == 14_368);
    assert!(size_of::<Acceptance>() == 40 && offset_of!(Acceptance, receipt) == 32);
    assert!(size_of::<Booked>() == 32 && offset_of!(Booked, book) == 8);
    assert!(size_of::<Writing>() == 16 && offset_of!(Writing, size) == 8);
};
