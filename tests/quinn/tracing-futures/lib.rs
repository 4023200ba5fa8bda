//! Stands in for tracing-futures, which Debian 12 lacks: what quinn's tests use of it is in tracing too.
pub use tracing::Instrument;
