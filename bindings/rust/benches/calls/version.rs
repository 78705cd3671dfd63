//! One face for the three versions, so that the same text drives each.
//!
//! Every version costs exactly one call. The library is called by its C interface as it is
//! (`raw`), with nothing of the safe bindings in between; the Rust versions are each kept behind
//! a function that is not inlined. What an answer says is taken out on the caller's side.

use std::hint::black_box;

use pepperknoll::raw;
use plain::frame::Form;
use plain::message::Start;
use plain::packet::Packet;
use plain::resequencer::Resequencer;

/// The places for tickets.
pub type Places = [u16; 32];
/// The places for lost addresses.
pub type Lost = [u8; 256];

/// A choice's arguments beside the table.
#[derive(Clone, Copy)]
pub struct Asked {
    pub address: u8,
    pub last: Option<u16>,
    pub failed: u16,
}

/// The measured calls. Each gives one number that its answer says, so that it cannot be left out
/// and so that the versions can be held against each other.
pub trait Version {
    type Form: Copy + 'static;
    type Packet: Copy + 'static;
    type Sender: Copy + 'static;
    type Receiver: Copy + 'static;
    type Resequencer: Clone + 'static;
    type Table: Clone + 'static;

    fn form(form: Form) -> Self::Form;
    fn packet(packet: Packet) -> Self::Packet;
    fn sender(edge: u8, next: u8, held_off: bool) -> Self::Sender;
    fn receiver() -> Self::Receiver;
    fn resequencer(state: &Resequencer) -> Self::Resequencer;
    fn table(codes: [u16; 256]) -> Self::Table;

    fn arrive(state: &mut Self::Resequencer, sn: u8, ticket: u16, out: &mut Places) -> u64;
    fn clock_end(state: &mut Self::Resequencer, sn: u8, out: &mut Places) -> u64;
    fn send(state: &mut Self::Sender) -> u64;
    fn ready(state: &mut Self::Sender, pr: u8) -> u64;
    fn not_ready(state: &mut Self::Sender, pr: u8) -> u64;
    fn reject(state: &mut Self::Sender, pr: u8) -> u64;
    fn receive(state: &mut Self::Receiver, ps: u8) -> u64;
    fn write(form: Self::Form, packet: &Self::Packet, user: &[u8], out: &mut [u8]) -> u64;
    /// Gives where the user data ends.
    fn read(form: Self::Form, frame: &[u8]) -> u64;
    fn frame_fault(form: Self::Form, frame: &[u8]) -> u64;
    fn cut(
        form: Self::Form,
        start: Start,
        message: &[u8],
        out: &mut [u8],
        lengths: &mut [usize],
    ) -> u64;
    fn join(form: Self::Form, lengths: &[usize], frames: &[u8], out: &mut [u8]) -> u64;
    fn message_fault(form: Self::Form, lengths: &[usize], frames: &[u8], room: usize) -> u64;
    fn update(table: &mut Self::Table, list: &[u8], lost: &mut Lost) -> u64;
    fn choose(table: &Self::Table, asked: Asked) -> u64;
}

/// The proved library, through `raw`.
pub struct Library;

/// The values of an answer; a refusal would be none of the measured work.
#[inline(always)]
pub fn done(answer: u64) -> u64 {
    assert!(answer as u8 == 0);
    answer >> 8
}

// SAFETY, for every call below: each list is lent whole with its own length, and a list that is
// written to is borrowed alone.
impl Version for Library {
    type Form = u8;
    type Packet = [u8; 10];
    type Sender = [u8; 3];
    type Receiver = [u8; 3];
    type Resequencer = [u8; 146];
    type Table = [u8; 512];

    fn form(form: Form) -> u8 {
        match form {
            Form::ShortUplink => 0,
            Form::LongDownlink(segments @ 1..=16) => segments,
            Form::LongDownlink(_) => 255,
            Form::LongUplink => 17,
        }
    }

    fn packet(packet: Packet) -> [u8; 10] {
        packet.to_bytes()
    }

    fn sender(edge: u8, next: u8, held_off: bool) -> [u8; 3] {
        [edge, next, held_off.into()]
    }

    fn receiver() -> [u8; 3] {
        [0, 1, 0]
    }

    fn resequencer(state: &Resequencer) -> [u8; 146] {
        state.to_bytes()
    }

    fn table(codes: [u16; 256]) -> [u8; 512] {
        plain::route::Table { codes }.to_bytes()
    }

    #[inline(always)]
    fn arrive(state: &mut [u8; 146], sn: u8, ticket: u16, out: &mut Places) -> u64 {
        let (state, places) = (state.as_mut_ptr(), out.as_mut_ptr());
        let answer = unsafe { raw::pk_resequencer_arrive(state, 146, places, 32, sn, ticket) };
        done(answer.into()) >> 8
    }

    #[inline(always)]
    fn clock_end(state: &mut [u8; 146], sn: u8, out: &mut Places) -> u64 {
        let (state, places) = (state.as_mut_ptr(), out.as_mut_ptr());
        let answer = unsafe { raw::pk_resequencer_clock_end(state, 146, places, 32, sn) };
        done(answer.into()) >> 8
    }

    #[inline(always)]
    fn send(state: &mut [u8; 3]) -> u64 {
        done(unsafe { raw::pk_sender_send(state.as_mut_ptr(), 3) }.into())
    }

    #[inline(always)]
    fn ready(state: &mut [u8; 3], pr: u8) -> u64 {
        let answer = unsafe { raw::pk_sender_ready(state.as_mut_ptr(), 3, pr) };
        done(answer.into()) + u64::from(state[0])
    }

    #[inline(always)]
    fn not_ready(state: &mut [u8; 3], pr: u8) -> u64 {
        let answer = unsafe { raw::pk_sender_not_ready(state.as_mut_ptr(), 3, pr) };
        done(answer.into()) + u64::from(state[0])
    }

    #[inline(always)]
    fn reject(state: &mut [u8; 3], pr: u8) -> u64 {
        let answer = unsafe { raw::pk_sender_reject(state.as_mut_ptr(), 3, pr) };
        done(answer.into()) + u64::from(state[0])
    }

    #[inline(always)]
    fn receive(state: &mut [u8; 3], ps: u8) -> u64 {
        done(unsafe { raw::pk_receiver_receive(state.as_mut_ptr(), 3, ps) }.into())
    }

    #[inline(always)]
    fn write(form: u8, packet: &[u8; 10], user: &[u8], out: &mut [u8]) -> u64 {
        let (user, user_len, room) = (user.as_ptr(), user.len(), out.len());
        done(unsafe {
            raw::pk_frame_write(
                form,
                packet.as_ptr(),
                10,
                user,
                user_len,
                out.as_mut_ptr(),
                room,
            )
        })
    }

    #[inline(always)]
    fn read(form: u8, frame: &[u8]) -> u64 {
        let mut packet = [0; 10];
        let (start, length) = (frame.as_ptr(), frame.len());
        let answer = unsafe { raw::pk_frame_read(form, start, length, packet.as_mut_ptr(), 10) };
        black_box(&packet);
        let values = done(answer);
        (values & 0xFF) + (values >> 8)
    }

    #[inline(always)]
    fn frame_fault(form: u8, frame: &[u8]) -> u64 {
        (unsafe { raw::pk_frame_fault(form, frame.as_ptr(), frame.len()) }) as u64
    }

    #[inline(always)]
    fn cut(form: u8, start: Start, message: &[u8], out: &mut [u8], lengths: &mut [usize]) -> u64 {
        let Start { sn, ps, pr, ch } = start;
        done(unsafe {
            raw::pk_message_cut(
                form,
                sn,
                ps,
                pr,
                ch,
                message.as_ptr(),
                message.len(),
                out.as_mut_ptr(),
                out.len(),
                lengths.as_mut_ptr(),
                lengths.len(),
            )
        }) >> 24
    }

    #[inline(always)]
    fn join(form: u8, lengths: &[usize], frames: &[u8], out: &mut [u8]) -> u64 {
        done(unsafe {
            raw::pk_message_join(
                form,
                lengths.as_ptr(),
                lengths.len(),
                frames.as_ptr(),
                frames.len(),
                out.as_mut_ptr(),
                out.len(),
            )
        })
    }

    #[inline(always)]
    fn message_fault(form: u8, lengths: &[usize], frames: &[u8], room: usize) -> u64 {
        let (start, length) = (frames.as_ptr(), frames.len());
        let (lengths, count) = (lengths.as_ptr(), lengths.len());
        (unsafe { raw::pk_message_fault(form, lengths, count, start, length, room) }) as u64
    }

    #[inline(always)]
    fn update(table: &mut [u8; 512], list: &[u8], lost: &mut Lost) -> u64 {
        let (table, places) = (table.as_mut_ptr(), lost.as_mut_ptr());
        let (list, length) = (list.as_ptr(), list.len());
        done(unsafe { raw::pk_table_update(table, 512, list, length, places, 256) }.into())
    }

    #[inline(always)]
    fn choose(table: &[u8; 512], asked: Asked) -> u64 {
        let (table, last) = (table.as_ptr(), asked.last.unwrap_or(0xFFFF));
        let answer = unsafe { raw::pk_table_choose(table, 512, asked.address, last, asked.failed) };
        done(answer.into())
    }
}

/// No work at all: what the loop around a call takes, with its resets, to be left out of counts.
pub struct Nothing;

#[inline(never)]
pub fn nothing() -> u64 {
    black_box(1)
}

impl Version for Nothing {
    type Form = Form;
    type Packet = Packet;
    type Sender = [u8; 3];
    type Receiver = [u8; 3];
    type Resequencer = [u8; 146];
    type Table = [u8; 512];

    fn form(form: Form) -> Form {
        form
    }

    fn packet(packet: Packet) -> Packet {
        packet
    }

    fn sender(edge: u8, next: u8, held_off: bool) -> [u8; 3] {
        [edge, next, held_off.into()]
    }

    fn receiver() -> [u8; 3] {
        [0; 3]
    }

    fn resequencer(_: &Resequencer) -> [u8; 146] {
        [0; 146]
    }

    fn table(_: [u16; 256]) -> [u8; 512] {
        [0; 512]
    }

    #[inline(always)]
    fn arrive(_: &mut [u8; 146], _: u8, _: u16, _: &mut Places) -> u64 {
        nothing()
    }

    #[inline(always)]
    fn clock_end(_: &mut [u8; 146], _: u8, _: &mut Places) -> u64 {
        nothing()
    }

    #[inline(always)]
    fn send(_: &mut [u8; 3]) -> u64 {
        nothing()
    }

    #[inline(always)]
    fn ready(_: &mut [u8; 3], _: u8) -> u64 {
        nothing()
    }

    #[inline(always)]
    fn not_ready(_: &mut [u8; 3], _: u8) -> u64 {
        nothing()
    }

    #[inline(always)]
    fn reject(_: &mut [u8; 3], _: u8) -> u64 {
        nothing()
    }

    #[inline(always)]
    fn receive(_: &mut [u8; 3], _: u8) -> u64 {
        nothing()
    }

    #[inline(always)]
    fn write(_: Form, _: &Packet, _: &[u8], _: &mut [u8]) -> u64 {
        nothing()
    }

    #[inline(always)]
    fn read(_: Form, _: &[u8]) -> u64 {
        nothing()
    }

    #[inline(always)]
    fn frame_fault(_: Form, _: &[u8]) -> u64 {
        nothing()
    }

    #[inline(always)]
    fn cut(_: Form, _: Start, _: &[u8], _: &mut [u8], _: &mut [usize]) -> u64 {
        nothing()
    }

    #[inline(always)]
    fn join(_: Form, _: &[usize], _: &[u8], _: &mut [u8]) -> u64 {
        nothing()
    }

    #[inline(always)]
    fn message_fault(_: Form, _: &[usize], _: &[u8], _: usize) -> u64 {
        nothing()
    }

    #[inline(always)]
    fn update(_: &mut [u8; 512], _: &[u8], _: &mut Lost) -> u64 {
        nothing()
    }

    #[inline(always)]
    fn choose(_: &[u8; 512], _: Asked) -> u64 {
        nothing()
    }
}

/// A Rust version: the same text for `plain` and `best`, which have the same calls. Reading and
/// joining answer the refusal with its position in one and without it in the other.
macro_rules! rust_version {
    ($(#[$doc:meta])* $name:ident, $package:ident, $resequencer:expr, $refused:ty) => {
        $(#[$doc])*
        pub struct $name;

        impl Version for $name {
            type Form = Form;
            type Packet = Packet;
            type Sender = $package::window::Sender;
            type Receiver = $package::window::Receiver;
            type Resequencer = $package::resequencer::Resequencer;
            type Table = $package::route::Table;

            fn form(form: Form) -> Form {
                form
            }

            fn packet(packet: Packet) -> Packet {
                packet
            }

            fn sender(edge: u8, next: u8, held_off: bool) -> Self::Sender {
                $package::window::Sender { edge, next, held_off }
            }

            fn receiver() -> Self::Receiver {
                $package::window::Receiver { expected: 0, mark: true, count: 0 }
            }

            fn resequencer(state: &Resequencer) -> Self::Resequencer {
                $resequencer(state)
            }

            fn table(codes: [u16; 256]) -> Self::Table {
                $package::route::Table { codes }
            }

            #[inline(always)]
            fn arrive(state: &mut Self::Resequencer, sn: u8, ticket: u16, out: &mut Places) -> u64 {
                #[inline(never)]
                fn call(
                    state: &mut $package::resequencer::Resequencer,
                    sn: u8,
                    ticket: u16,
                    out: &mut Places,
                ) -> Result<plain::resequencer::Answer, plain::Refusal> {
                    state.arrive(sn, ticket, out)
                }
                call(state, sn, ticket, out).unwrap().count.into()
            }

            #[inline(always)]
            fn clock_end(state: &mut Self::Resequencer, sn: u8, out: &mut Places) -> u64 {
                #[inline(never)]
                fn call(
                    state: &mut $package::resequencer::Resequencer,
                    sn: u8,
                    out: &mut Places,
                ) -> Result<plain::resequencer::Answer, plain::Refusal> {
                    state.clock_end(sn, out)
                }
                call(state, sn, out).unwrap().count.into()
            }

            #[inline(always)]
            fn send(state: &mut Self::Sender) -> u64 {
                #[inline(never)]
                fn call(state: &mut $package::window::Sender) -> Result<u8, plain::Refusal> {
                    state.send()
                }
                call(state).unwrap().into()
            }

            #[inline(always)]
            fn ready(state: &mut Self::Sender, pr: u8) -> u64 {
                #[inline(never)]
                fn call(
                    state: &mut $package::window::Sender,
                    pr: u8,
                ) -> Result<(), plain::Refusal> {
                    state.ready(pr)
                }
                call(state, pr).unwrap();
                state.edge.into()
            }

            #[inline(always)]
            fn not_ready(state: &mut Self::Sender, pr: u8) -> u64 {
                #[inline(never)]
                fn call(
                    state: &mut $package::window::Sender,
                    pr: u8,
                ) -> Result<(), plain::Refusal> {
                    state.not_ready(pr)
                }
                call(state, pr).unwrap();
                state.edge.into()
            }

            #[inline(always)]
            fn reject(state: &mut Self::Sender, pr: u8) -> u64 {
                #[inline(never)]
                fn call(
                    state: &mut $package::window::Sender,
                    pr: u8,
                ) -> Result<(), plain::Refusal> {
                    state.reject(pr)
                }
                call(state, pr).unwrap();
                state.edge.into()
            }

            #[inline(always)]
            fn receive(state: &mut Self::Receiver, ps: u8) -> u64 {
                #[inline(never)]
                fn call(
                    state: &mut $package::window::Receiver,
                    ps: u8,
                ) -> Result<bool, plain::Refusal> {
                    state.receive(ps)
                }
                call(state, ps).unwrap().into()
            }

            #[inline(always)]
            fn write(form: Form, packet: &Packet, user: &[u8], out: &mut [u8]) -> u64 {
                #[inline(never)]
                fn call(
                    form: Form,
                    packet: &Packet,
                    user: &[u8],
                    out: &mut [u8],
                ) -> Result<usize, plain::Refusal> {
                    $package::frame::write(form, packet, user, out)
                }
                call(form, packet, user, out).unwrap() as u64
            }

            #[inline(always)]
            fn read(form: Form, frame: &[u8]) -> u64 {
                #[inline(never)]
                fn call(form: Form, frame: &[u8]) -> Result<(Packet, &[u8]), $refused> {
                    $package::frame::read(form, frame)
                }
                // Looked at where it stands: a copy would be none of the call's work.
                let result = call(form, frame);
                let Ok((_, user)) = black_box(&result) else {
                    panic!("refused")
                };
                let start = user.as_ptr() as usize - frame.as_ptr() as usize;
                (start + user.len()) as u64
            }

            #[inline(always)]
            fn frame_fault(form: Form, frame: &[u8]) -> u64 {
                #[inline(never)]
                fn call(form: Form, frame: &[u8]) -> usize {
                    $package::frame::fault(form, frame)
                }
                call(form, frame) as u64
            }

            #[inline(always)]
            fn cut(
                form: Form,
                start: Start,
                message: &[u8],
                out: &mut [u8],
                lengths: &mut [usize],
            ) -> u64 {
                #[inline(never)]
                fn call(
                    form: Form,
                    start: Start,
                    message: &[u8],
                    out: &mut [u8],
                    lengths: &mut [usize],
                ) -> Result<plain::message::Cut, plain::Refusal> {
                    $package::message::cut(form, start, message, out, lengths)
                }
                call(form, start, message, out, lengths).unwrap().bytes as u64
            }

            #[inline(always)]
            fn join(form: Form, lengths: &[usize], frames: &[u8], out: &mut [u8]) -> u64 {
                #[inline(never)]
                fn call(
                    form: Form,
                    lengths: &[usize],
                    frames: &[u8],
                    out: &mut [u8],
                ) -> Result<usize, $refused> {
                    $package::message::join(form, lengths, frames, out)
                }
                call(form, lengths, frames, out).unwrap() as u64
            }

            #[inline(always)]
            fn message_fault(form: Form, lengths: &[usize], frames: &[u8], room: usize) -> u64 {
                #[inline(never)]
                fn call(form: Form, lengths: &[usize], frames: &[u8], room: usize) -> usize {
                    $package::message::fault(form, lengths, frames, room)
                }
                call(form, lengths, frames, room) as u64
            }

            #[inline(always)]
            fn update(table: &mut Self::Table, list: &[u8], lost: &mut Lost) -> u64 {
                #[inline(never)]
                fn call(
                    table: &mut $package::route::Table,
                    list: &[u8],
                    lost: &mut Lost,
                ) -> Result<usize, plain::Refusal> {
                    table.update(list, lost)
                }
                call(table, list, lost).unwrap() as u64
            }

            #[inline(always)]
            fn choose(table: &Self::Table, asked: Asked) -> u64 {
                #[inline(never)]
                fn call(
                    table: &$package::route::Table,
                    address: u8,
                    last: Option<u16>,
                    failed: u16,
                ) -> Result<u8, plain::Refusal> {
                    table.choose(address, last, failed)
                }
                let Asked { address, last, failed } = asked;
                call(table, address, last, failed).unwrap().into()
            }
        }
    };
}

rust_version!(
    /// The plain Rust version.
    Plain,
    plain,
    Resequencer::clone,
    plain::Fault
);
rust_version!(
    /// The fastest safe Rust version.
    Best,
    best,
    best::resequencer::Resequencer::from_plain,
    plain::Refusal
);
