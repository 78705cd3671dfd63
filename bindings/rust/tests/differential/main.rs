//! The library against `plain`, call by call and over long sequences: the same answers, and the
//! same lent memory, guards around it included. And messages from end to end.
//!
//! `PEPPERKNOLL_SEED=n` sets the seed, `PEPPERKNOLL_LONG=1` the long setting.

mod choice;
mod faults;
mod frames;
mod kinds;
mod lengths;
mod messages;
mod resequencer;
mod routes;
mod routes_frames;
mod support;
mod transfer;
mod window;

use support::subject;

#[test]
fn window() {
    subject("window", window::run);
}

#[test]
fn resequencer() {
    subject("resequencer", resequencer::run);
}

#[test]
fn frames() {
    subject("frames", frames::run);
}

#[test]
fn faults() {
    subject("faults", faults::run);
}

#[test]
fn messages() {
    subject("messages", messages::run);
}

#[test]
fn routes() {
    subject("routes", routes::run);
}

#[test]
fn routes_frames() {
    subject("routes-frames", routes_frames::run);
}

#[test]
fn choice() {
    subject("choice", choice::run);
}

#[test]
fn lengths() {
    subject("lengths", lengths::run);
}

#[test]
fn transfer() {
    subject("transfer", transfer::run);
}
