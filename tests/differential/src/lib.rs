//! Document 01 twice: an independent implementation and the library under
//! test, with the same calls, so that tests can compare them.
//!
//! `CRUMBTHISTLE_LIB` names the folder of the archives where they are not the
//! project's own. `SEED` and `CALLS` give the tests another seed and
//! another number of calls for each area.

pub mod compare;
pub mod guarded;
pub mod library;
pub mod random;
pub mod readers;
pub mod reference;
pub mod strip;
pub mod thresholds;
