//! The calls that are measured, as fast as safe Rust makes them: the same checks and the same
//! answers as [`plain`], whose types it speaks, but the sets are taken as words relative to
//! NESN, tickets are checked eight at a time, and lengths are fixed where a form fixes them.

pub mod frame;
pub mod message;
pub mod resequencer;
pub mod route;
pub mod window;
