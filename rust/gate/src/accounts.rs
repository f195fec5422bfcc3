//! The accounts of a gate, in the columns that are lent to its calls.
use crate::{Account, Number};

/// How many accounts a gate may have at most.
pub const ACCOUNTS_MOST: usize = 256;

/// The bytes of the numbers.
pub(crate) type Names = [[u8; 30]; ACCOUNTS_MOST];

/// The lengths of the numbers, and the types.
pub(crate) type Keys = [[u64; 2]; ACCOUNTS_MOST];

/// What stands on the accounts.
pub(crate) type Balances = [i64; ACCOUNTS_MOST];

/// The columns of the accounts. Account `i` is `names[i]`, `keys[i]` and `balances[i]`.
///
/// The fields are public because there is nothing to protect: each call checks every value of an open account and
/// refuses what is wrong ([`Fault::Unsound`](crate::Fault::Unsound)).
#[derive(Clone, Debug, PartialEq, Eq)]
pub struct Accounts {
    /// The bytes of the number; those past its length are never looked at.
    pub names: [[u8; 30]; ACCOUNTS_MOST],
    /// Length of the number, type.
    pub keys: [[u64; 2]; ACCOUNTS_MOST],
    /// Kopecks; below zero where a settlement took back what was already drawn.
    pub balances: [i64; ACCOUNTS_MOST],
}

impl Accounts {
    /// Every place empty.
    pub const NONE: Accounts =
        Accounts { names: [[0; 30]; ACCOUNTS_MOST], keys: [[0; 2]; ACCOUNTS_MOST], balances: [0; ACCOUNTS_MOST] };

    /// The account at a place, from 0; it means something where the place is open.
    pub fn account(&self, place: usize) -> Option<Account> {
        (place < ACCOUNTS_MOST).then(|| self.at(place))
    }

    /// All places as values, as the calls by value have them.
    pub(crate) fn values(&self) -> [Account; ACCOUNTS_MOST] {
        std::array::from_fn(|place| self.at(place))
    }

    /// Puts an account at each place.
    pub(crate) fn put(&mut self, values: &[Account; ACCOUNTS_MOST]) {
        for (place, Account { number, kind, balance }) in values.iter().enumerate() {
            self.names[place] = number.bytes;
            self.keys[place] = [number.len as u64, *kind];
            self.balances[place] = *balance;
        }
    }

    fn at(&self, place: usize) -> Account {
        let [len, kind] = self.keys[place];
        // a length has 64 bits in a number too: the archive is for such machines alone, and `ffi` asserts its layouts
        let number = Number { bytes: self.names[place], len: len as usize };
        Account { number, kind, balance: self.balances[place] }
    }
}

#[cfg(test)]
mod tests {
    use super::*;

    #[test]
    fn an_account_is_read_from_its_columns() {
        let mut accounts = Accounts::NONE;
        accounts.names[255][..2].copy_from_slice(b"a1");
        accounts.keys[255] = [2, 7];
        accounts.balances[255] = -1;
        let account = accounts.account(255).unwrap();
        assert_eq!((account.number.as_bytes(), account.kind, account.balance), (&b"a1"[..], 7, -1));
        assert_eq!(accounts.account(256), None);
    }

    #[test]
    fn every_bit_of_an_account_is_put_back() {
        let mut accounts = Accounts::NONE;
        for place in 0..ACCOUNTS_MOST {
            accounts.names[place] = std::array::from_fn(|at| (place + at) as u8);
            accounts.keys[place] = [u64::MAX - place as u64, place as u64];
            accounts.balances[place] = i64::MIN + place as i64;
        }
        let mut other = Accounts::NONE;
        other.put(&accounts.values());
        assert_eq!(other, accounts);
    }
}
