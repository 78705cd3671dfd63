//! Safe Rust bindings of Pepperknoll, the proved packet layer of an air-ground data link (the
//! Mode S subnetwork of ICAO Annex 10 Volume III).
//!
//! The library proper is a static library with a C interface; this crate declares its calls and
//! wraps each in a safe one. Nothing here decides anything: every answer is the library's.
//!
//! - [`Sender`] and [`Receiver`] are the two ends of the flow window (PS and PR, modulo 16).
//! - [`Resequencer`] puts packets in order by their link number (SN, modulo 64).
//! - [`write_frame`] and [`read_frame`] turn a [`Packet`] into a frame and back; [`write_route`]
//!   does so for a [`Route`].
//! - [`cut`] and [`join`] turn a message into DATA frames and back.
//! - [`Table`] keeps the interrogators of each ground address; [`choose`] picks one.
//!
//! A call that cannot be done is refused: it answers a [`Refusal`] and has changed neither the
//! state nor any slice it was lent. [`read_frame`] and [`join`] answer a [`Refused`], the refusal
//! with the position of the first fault.
//!
//! A state owns its bytes, which may be stored and sent ([`Resequencer::as_bytes`],
//! [`Resequencer::from_bytes`]); bytes that are no state in good order are refused by every call
//! with [`Refusal::NotInOrder`].
//!
//! Nothing allocates, blocks or reads a clock: timers live with the caller, and
//! [`Resequencer::clocks`] says which run.
//!
//! ```
//! use pepperknoll::{LinkNumber, Outcome, Resequencer};
//!
//! let mut link = Resequencer::fresh();
//! assert_eq!(link.arrive(LinkNumber(1), 70), Ok(Outcome::Held));
//! match link.arrive(LinkNumber(0), 60) {
//!     Ok(Outcome::HandedOn(tickets)) => assert_eq!(*tickets, [60, 70]),
//!     other => panic!("{other:?}"),
//! }
//! ```

#![warn(missing_docs)]

mod answer;
mod frame;
mod message;
mod number;
mod packet;
pub mod raw;
mod refusal;
mod resequencer;
mod route;
mod route_packet;
mod window;

pub use frame::{read_frame, write_frame, Form, Read};
pub use message::{cut, join, Cut, Start, LONGEST_MESSAGE};
pub use number::{LinkNumber, PacketNumber};
pub use packet::Packet;
pub use refusal::{Clearing, Refusal, Refused};
pub use resequencer::{Outcome, Resequencer, Tickets};
pub use route::{choose, Lost, Table};
pub use route_packet::{write_route, Route};
pub use window::{Receiver, Sender};
