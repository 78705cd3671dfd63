//! The packet layer in plain Rust, written from the rules alone: states are ordinary structs,
//! events are methods that change them. It links nothing and shares no code with the library
//! that it is held against.
//!
//! Every call checks what the rules name, in their order, and answers a [`Refusal`] at the
//! first thing wrong; it then has changed neither the state nor any lent list. Reading and joining
//! say where that is as well, by a [`Fault`].
//!
//! [`lent`] has the same calls as the interface makes them, on lent lists and with packed answers.
//! [`replay`] is the replay program.
//!
//! [`frame::lay_out`], [`route_packet::lay_out`] and [`message::lay_out`] are no calls of the
//! interface: they make frames of every form, also of the short one, which the calls read and join
//! but no longer write and cut.

pub mod frame;
mod header;
pub mod lent;
pub mod message;
pub mod number;
pub mod packed;
pub mod packet;
mod refusal;
pub mod replay;
pub mod resequencer;
pub mod route;
pub mod route_packet;
pub mod window;

pub use refusal::{Fault, Refusal};

#[cfg(test)]
mod faults;
#[cfg(test)]
mod kinds;
#[cfg(test)]
mod paper;
#[cfg(test)]
mod short;
