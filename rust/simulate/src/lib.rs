//! One agent, one gate and the net between them, over the proved calls.
//!
//! Demand 3 of document 01 is a theorem about the calls' definitions. The boundary and the back end are under no proof,
//! so this runs the compiled calls: [`plan`] chooses steps, good ones and wild ones, [`net`] loses, delays, repeats and
//! reorders what was sent, [`world`] takes the steps, and after each of them [`claims`] and [`progress`] hold every
//! sentence of the demand against the real rows.

pub mod claims;
pub mod net;
pub mod plan;
pub mod progress;
pub mod run;
pub mod show;
pub mod world;
