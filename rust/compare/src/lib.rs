//! The proved calls and their twin, stepped together and compared whole: code, size, state and every lent byte.
//!
//! [`gates`] and [`books`] each have both sides of one end; [`script`] runs random steps on them and cuts a failing
//! script down to a short one; [`session`] and [`load`] run the proved programs by [`process`], [`measure`] times them; [`texts`] makes requests, answers and registries, good, nearly good and damaged.

pub mod books;
pub mod gates;
pub mod load;
pub mod measure;
pub mod process;
pub mod script;
pub mod session;
pub mod sides;
pub mod texts;
