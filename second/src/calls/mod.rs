//! The calls. Each one first finds every refusal, in the order the rules give, and only then changes anything:
//! "Every refusal leaves store, tables and image buffer as they stood." A run is such calls, one after another.

pub mod access;
pub mod closing;
pub mod inquiries;
pub mod moving;
pub mod opening;
pub mod pointers;
pub mod runs;
pub mod tidying;
