//! What request, registry line and record say of one payment.

use crate::date::Date;
use crate::fields::Number;

/// A payment as the agent named it.
#[derive(Clone, Copy, Debug)]
pub struct Payment {
    /// The agent's number of the payment.
    pub receipt: u64,
    /// The subscriber's number.
    pub number: Number,
    /// The type of that number.
    pub kind: u64,
    /// The sum.
    pub kopecks: u64,
    /// When the agent took it.
    pub date: Date,
}
