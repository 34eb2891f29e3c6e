//! The calls, one method each.

mod access;
mod closing;
mod inquiries;
mod opening;
mod operator;
mod pointers;
mod runs;
mod signed;
