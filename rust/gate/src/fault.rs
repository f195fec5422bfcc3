//! Faults by document 01's numbers.
use std::error::Error;
use std::fmt;

/// Lists each fault with its number in document 01 and a sentence that says what to do.
macro_rules! faults {
    ($($name:ident = $code:literal, $sentence:literal;)*) => {
        /// What a call refuses, or the gate answers, with document 01's number.
        ///
        /// A call that returns a fault has kept every state and every lent byte. The first eleven (to 32) also go over
        /// the wire: the gate's answer carries their number, and [`Answer::fault`](crate::Answer::fault) names it.
        #[derive(Clone, Copy, Debug, PartialEq, Eq, Hash)]
        pub enum Fault {
            $(#[doc = $sentence] $name = $code,)*
        }

        impl Fault {
            /// All of them, by rising number.
            pub const ALL: &'static [Fault] = &[$(Fault::$name),*];

            /// A sentence that says what to do.
            pub const fn advice(self) -> &'static str {
                match self {
                    $(Fault::$name => $sentence,)*
                }
            }
        }
    };
}

faults! {
    UnknownAction = 1, "Send one of the actions check, payment, status and cancel.";
    UnknownAccount = 2, "Give the number and type of an open account.";
    BadAmount = 3, "Give an amount from 0.01 to 9999999.99, with at most two decimals.";
    BadReceipt = 4, "Give a receipt of 1 to 15 digits, not zero, and not that of a payment with another number, type, amount or date.";
    BadDate = 5, "Give a date that is real and later than the closed day.";
    NoRecord = 6, "The gate has no such payment: send the payment again, or leave it to the registry.";
    Cancelled = 7, "The payment stands cancelled; accept a new one if it is still wanted.";
    NotCancelled = 9, "The cancel is not granted now; ask for the status, since a later copy may still succeed.";
    TableFull = 30, "Lend the gate a table with more records.";
    BadRequest = 31, "Write the parameters anew: at most 2,048 bytes of name=value, well coded, no name twice.";
    BadReason = 32, "Give a reason from 1 to 5.";
    SmallBuffer = 50, "Lend a buffer of at least ANSWER_ROOM, REQUEST_ROOM, REPORT_ROOM or REGISTRY_ROOM bytes.";
    BadClock = 51, "Set the clock: it is no date from 2000 to 2099 written as YYYY-MM-DDThh:mm:ss.";
    BadLine = 52, "Write the registry anew: a line is malformed, or its date is off the day.";
    ManyLines = 53, "Send a registry of at most 512 lines.";
    NotRising = 54, "Send the registry's lines by rising receipts.";
    WrongDay = 55, "Name a real day: for the gate up to the one after its closed, for the agent up to its frozen one.";
    AccountKnown = 56, "The account is open already: go on with it.";
    ManyAccounts = 57, "All 256 accounts are open: run a second gate.";
    BadDraw = 58, "Draw from 1 to 999,999,999 kopecks, and no more than the balance.";
    BadAccount = 59, "Give a well-formed number and type; draw from an open account only.";
    BadField = 60, "Give well-formed fields, with a date later than the frozen day.";
    NoPlace = 61, "Start a new book: this one, this day's 512 entries or the receipts are used up.";
    UnknownReceipt = 62, "Give a receipt that this book has handed out.";
    Forbidden = 63, "This request may not be written in the entry's state, or any longer on its day.";
    Unreadable = 64, "The answer cannot be read: ask for the status.";
    BadReport = 65, "Have the report sent again: it is one mark, 0 or 1, for each listed entry.";
    NotNext = 66, "Freeze the day after the frozen one, once that one has its report.";
    Unsound = 68, "Restore table or book from a good copy: a used field is out of its range.";
}

impl Fault {
    /// Document 01's number.
    pub const fn code(self) -> u64 {
        self as u64
    }

    /// The fault of a number, if it is one of document 01's.
    pub fn of(code: u64) -> Option<Fault> {
        Fault::ALL.iter().copied().find(|fault| fault.code() == code)
    }

    /// A call's code as a result: 0 is no fault.
    pub(crate) fn check(code: u64) -> Result<(), Fault> {
        match code {
            0 => Ok(()),
            _ => Err(Fault::of(code).expect("a proved call returns a code of document 01")),
        }
    }
}

impl fmt::Display for Fault {
    fn fmt(&self, f: &mut fmt::Formatter<'_>) -> fmt::Result {
        write!(f, "{}: {}", self.code(), self.advice())
    }
}

impl Error for Fault {}

#[cfg(test)]
mod tests {
    use super::*;

    #[test]
    fn each_number_names_its_fault() {
        for &fault in Fault::ALL {
            assert_eq!(Fault::of(fault.code()), Some(fault));
        }
        assert_eq!(Fault::of(0), None);
        assert_eq!(Fault::of(8), None, "code 8 is never written");
    }

    #[test]
    fn numbers_rise_and_sentences_end() {
        assert!(Fault::ALL.windows(2).all(|pair| pair[0].code() < pair[1].code()));
        assert!(Fault::ALL.iter().all(|fault| fault.advice().ends_with('.')));
    }
}
