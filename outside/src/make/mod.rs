//! Makers of cases.

pub mod affixes;
pub mod damage;
pub mod derive;
pub mod exceptions;
pub mod gauges;
pub mod layout;
pub mod limits;
pub mod lists;
pub mod random;
pub mod running;
pub mod sums;
pub mod words;
