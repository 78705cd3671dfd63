//! The measured calls: for each, the same inputs and the same resets for every version.

mod routes;
mod version;

use std::hint::black_box;

use plain::frame::{self, Form};
use plain::message::{self, Start};
use plain::packet::{
    CallAccept, CallRequest, ClearConfirmation, ClearRequest, Confirmation, Data, Interrupt,
    Packet, Receipt, Reset,
};
use plain::resequencer::Resequencer;

use routes::{read_route, write_route};
use version::{Asked, Best, Library, Nothing, Plain, Version};

/// Makes a call so many times; gives the sum of what the answers said.
pub type Run = Box<dyn FnMut(u64) -> u64>;

/// A call, and how each version's runs of it are made ready.
pub struct Call {
    pub name: &'static str,
    pub library: fn() -> Run,
    pub plain: fn() -> Run,
    pub best: fn() -> Run,
    /// The loop with an empty call.
    #[allow(dead_code)] // times are not taken of it
    pub nothing: fn() -> Run,
    /// Whether a copy of the message is measured beside it.
    pub beside_copy: bool,
}

macro_rules! calls {
    ($($name:literal $make:ident $beside_copy:literal;)*) => {
        /// All measured calls.
        pub const CALLS: &[Call] = &[$(Call {
            name: $name,
            library: $make::<Library>,
            plain: $make::<Plain>,
            best: $make::<Best>,
            nothing: $make::<Nothing>,
            beside_copy: $beside_copy,
        }),*];
    };
}

calls! {
    "arrive-in-order" arrive_in_order false;
    "arrive-early" arrive_early false;
    "arrive-at-gap" arrive_at_gap false;
    "clock-end" clock_end false;
    "clock-end-far" clock_end_far false;
    "send" send false;
    "sender-ready" sender_ready false;
    "sender-not-ready" sender_not_ready false;
    "sender-reject" sender_reject false;
    "receive" receive false;
    "write-data" write_data false;
    "read-data" read_data false;
    "write-request" write_request false;
    "read-request" read_request false;
    "write-confirmation" write_confirmation false;
    "read-confirmation" read_confirmation false;
    "write-call-request" write_call_request false;
    "read-call-request" read_call_request false;
    "write-call-request-air" write_call_request_air false;
    "read-call-request-air" read_call_request_air false;
    "write-call-accept" write_call_accept false;
    "read-call-accept" read_call_accept false;
    "write-call-accept-air" write_call_accept_air false;
    "read-call-accept-air" read_call_accept_air false;
    "write-rr" write_rr false;
    "read-rr" read_rr false;
    "write-rnr" write_rnr false;
    "read-rnr" read_rnr false;
    "write-reject" write_reject false;
    "read-reject" read_reject false;
    "write-interrupt" write_interrupt false;
    "read-interrupt" read_interrupt false;
    "write-interrupt-confirmation" write_interrupt_confirmation false;
    "read-interrupt-confirmation" read_interrupt_confirmation false;
    "write-reset" write_reset false;
    "read-reset" read_reset false;
    "write-reset-confirmation" write_reset_confirmation false;
    "read-reset-confirmation" read_reset_confirmation false;
    "write-route" write_route false;
    "read-route" read_route false;
    "frame-fault" frame_fault false;
    "cut" cut true;
    "join" join true;
    "message-fault" message_fault false;
    "update" update false;
    "choose" choose false;
}

/// Loops over one call; the sum is looked at, so that no call can be left out.
fn looped(mut once: impl FnMut() -> u64 + 'static) -> Run {
    Box::new(move |times| {
        let mut sum = 0u64;
        for _ in 0..times {
            sum = sum.wrapping_add(once());
        }
        black_box(sum)
    })
}

const TICKET: u16 = 0x1234;

/// Each packet is the expected one; one ticket leaves.
fn arrive_in_order<V: Version>() -> Run {
    let mut state = V::resequencer(&Resequencer::fresh());
    let (mut places, mut sn) = ([0; 32], 0);
    looped(move || {
        let count = V::arrive(black_box(&mut state), sn, TICKET, black_box(&mut places));
        sn = (sn + 1) % 64;
        count
    })
}

/// Every number of the window but the first, by turns far and near, from NESN 50; then again
/// from the start.
fn arrive_early<V: Version>() -> Run {
    let start = V::resequencer(&holding(1..1));
    let arrivals: Vec<u8> = (1..32u8).map(|at| (50 + (at * 12) % 31 + 1) % 64).collect();
    let (mut state, mut places, mut turn) = (start.clone(), [0; 32], 0);
    looped(move || {
        if turn == arrivals.len() {
            turn = 0;
            black_box(&mut state).clone_from(&start);
        }
        let sn = arrivals[turn];
        turn += 1;
        V::arrive(black_box(&mut state), sn, TICKET, black_box(&mut places))
    })
}

/// The expected packet, with the other 31 numbers of the window held: 32 tickets leave each time.
fn arrive_at_gap<V: Version>() -> Run {
    let start = V::resequencer(&holding(1..32));
    let (mut state, mut places) = (start.clone(), [0; 32]);
    looped(move || {
        black_box(&mut state).clone_from(&start);
        V::arrive(black_box(&mut state), 50, TICKET, black_box(&mut places))
    })
}

/// Only the last number of the window is held: 31 numbers are given up and one ticket leaves each
/// time.
fn clock_end_far<V: Version>() -> Run {
    let start = V::resequencer(&holding(31..32));
    let (mut state, mut places) = (start.clone(), [0; 32]);
    looped(move || {
        black_box(&mut state).clone_from(&start);
        V::clock_end(
            black_box(&mut state),
            (50 + 31) % 64,
            black_box(&mut places),
        )
    })
}

/// NESN 50, with the numbers at these distances from it held.
fn holding(distances: std::ops::Range<u8>) -> Resequencer {
    let mut state = Resequencer {
        nesn: 50,
        ..Resequencer::fresh()
    };
    for distance in distances {
        state
            .arrive((50 + distance) % 64, TICKET, &mut [0; 32])
            .unwrap();
    }
    state
}

/// Ten runs of two numbers, each with a clock: the clocks end from the nearest on, two tickets
/// leave each time; then again from the start.
fn clock_end<V: Version>() -> Run {
    let mut held = holding(1..1);
    let first = |run: u8| (50 + 3 * run + 1) % 64;
    for run in 0..10 {
        for sn in [first(run), (first(run) + 1) % 64] {
            held.arrive(sn, TICKET, &mut [0; 32]).unwrap();
        }
    }
    assert_eq!((held.held.count_ones(), held.clocks.count_ones()), (20, 10));
    let start = V::resequencer(&held);
    let (mut state, mut places, mut run) = (start.clone(), [0; 32], 0);
    looped(move || {
        if run == 10 {
            run = 0;
            black_box(&mut state).clone_from(&start);
        }
        let sn = first(run);
        run += 1;
        V::clock_end(black_box(&mut state), sn, black_box(&mut places))
    })
}

/// Fifteen packets from an edge of 9, then again from the start.
fn send<V: Version>() -> Run {
    let start = V::sender(9, 9, false);
    let (mut state, mut sent) = (start, 0);
    looped(move || {
        if sent == 15 {
            sent = 0;
            state = start;
        }
        sent += 1;
        V::send(black_box(&mut state))
    })
}

/// Every PR of a window with fifteen packets out, from its edge of 9 on; then again from the start.
fn take_pr<V: Version>(held_off: bool, take: fn(&mut V::Sender, u8) -> u64) -> Run {
    let start = V::sender(9, 8, held_off);
    let (mut state, mut taken) = (start, 0);
    looped(move || {
        if taken == 15 {
            taken = 0;
            state = start;
        }
        taken += 1;
        take(black_box(&mut state), (9 + taken) % 16)
    })
}

fn sender_ready<V: Version>() -> Run {
    take_pr::<V>(true, V::ready)
}

fn sender_not_ready<V: Version>() -> Run {
    take_pr::<V>(false, V::not_ready)
}

fn sender_reject<V: Version>() -> Run {
    take_pr::<V>(true, V::reject)
}

/// Each packet is the expected one.
fn receive<V: Version>() -> Run {
    let (mut state, mut ps) = (V::receiver(), 0);
    looped(move || {
        let due = V::receive(black_box(&mut state), ps);
        ps = (ps + 1) % 16;
        due
    })
}

const DATA: Packet = Packet::Data(Data {
    m: true,
    sn: 5,
    ps: 3,
    pr: 2,
    ch: 4,
});
const REQUEST: Packet = Packet::ClearRequest(ClearRequest {
    tc: 1,
    sn: 9,
    ch: 3,
    am: 2,
    ag: 0x41,
    cc: 141,
    dc: 162,
    s: true,
    f: false,
});
const CONFIRMATION: Packet = Packet::ClearConfirmation(ClearConfirmation {
    tc: 1,
    sn: 9,
    ch: 3,
    am: 2,
    ag: 0x41,
});

/// A CALL REQUEST of the uplink, then of the downlink.
const CALL_REQUEST: Packet = call_request(1, 0);
const CALL_REQUEST_AIR: Packet = call_request(0, 3);

const fn call_request(tc: u8, ch: u8) -> Packet {
    Packet::CallRequest(CallRequest {
        p: true,
        sn: 5,
        tc,
        ch,
        am: 2,
        ag: 0x41,
        s: true,
        fs: 2,
        f: false,
    })
}

/// A CALL ACCEPT of the uplink, then of the downlink.
const CALL_ACCEPT: Packet = call_accept(0);
const CALL_ACCEPT_AIR: Packet = call_accept(1);

const fn call_accept(tc: u8) -> Packet {
    Packet::CallAccept(CallAccept {
        tc,
        sn: 5,
        ch: 3,
        am: 2,
        ag: 0x41,
        s: true,
        f: false,
    })
}

const RECEIPT: Receipt = Receipt {
    sn: 5,
    ch: 3,
    pr: 7,
};
const CONFIRMED: Confirmation = Confirmation { sn: 5, ch: 3 };
const INTERRUPT: Packet = Packet::Interrupt(Interrupt {
    s: false,
    f: true,
    sn: 5,
    ch: 3,
});
const RESET: Packet = Packet::Reset(Reset {
    sn: 5,
    ch: 3,
    rc: 1,
    dc: 2,
});

fn write<V: Version>(form: Form, packet: Packet, user_length: usize) -> Run {
    let (form, packet) = (V::form(form), V::packet(packet));
    let user = vec![0x55; user_length];
    let mut out = [0; 160];
    looped(move || {
        let (packet, user) = (black_box(&packet), black_box(&user[..]));
        V::write(black_box(form), packet, user, black_box(&mut out[..]))
    })
}

fn written(form: Form, packet: Packet, user_length: usize) -> Vec<u8> {
    let mut frame = vec![0; 160];
    let user = vec![0x55; user_length];
    let length = frame::write(form, &packet, &user, &mut frame).unwrap();
    frame.truncate(length);
    frame
}

fn read<V: Version>(form: Form, packet: Packet, user_length: usize) -> Run {
    let frame = written(form, packet, user_length);
    let form = V::form(form);
    looped(move || V::read(black_box(form), black_box(&frame[..])))
}

const UP: Form = Form::LongUplink;
const DOWN: Form = Form::LongDownlink(16);

/// User data of a DATA packet, of a CLEAR REQUEST, and of the other packets that have some: none
/// fills its last segment but that of an INTERRUPT.
const DATA_USER: usize = 60;
const REQUEST_USER: usize = 16;
const USER: usize = 17;

macro_rules! frames {
    ($($write:ident $read:ident $form:ident $packet:expr, $user:ident;)*) => {
        $(
            fn $write<V: Version>() -> Run {
                write::<V>($form, $packet, $user)
            }

            fn $read<V: Version>() -> Run {
                read::<V>($form, $packet, $user)
            }
        )*
    };
}

const NONE: usize = 0;

frames! {
    write_data read_data UP DATA, DATA_USER;
    write_request read_request UP REQUEST, REQUEST_USER;
    write_confirmation read_confirmation UP CONFIRMATION, NONE;
    write_call_request read_call_request UP CALL_REQUEST, USER;
    write_call_request_air read_call_request_air DOWN CALL_REQUEST_AIR, USER;
    write_call_accept read_call_accept UP CALL_ACCEPT, USER;
    write_call_accept_air read_call_accept_air DOWN CALL_ACCEPT_AIR, USER;
    write_rr read_rr UP Packet::ReceiveReady(RECEIPT), NONE;
    write_rnr read_rnr UP Packet::ReceiveNotReady(RECEIPT), NONE;
    write_reject read_reject UP Packet::Reject(RECEIPT), NONE;
    write_interrupt read_interrupt UP INTERRUPT, USER;
    write_interrupt_confirmation read_interrupt_confirmation
        UP Packet::InterruptConfirmation(CONFIRMED), NONE;
    write_reset read_reset UP RESET, NONE;
    write_reset_confirmation read_reset_confirmation UP Packet::ResetConfirmation(CONFIRMED), NONE;
}

/// The last byte of the padding is wrong, so that all of the frame is looked at.
fn frame_fault<V: Version>() -> Run {
    let (form, mut frame) = (
        V::form(Form::LongUplink),
        written(UP, REQUEST, REQUEST_USER),
    );
    *frame.last_mut().expect("it is not empty") = 1;
    looped(move || V::frame_fault(black_box(form), black_box(&frame[..])))
}

const MESSAGE: usize = 4096;
const START: Start = Start {
    sn: 50,
    ps: 12,
    pr: 3,
    ch: 9,
};

fn some_message() -> Vec<u8> {
    (0..MESSAGE).map(|at| (at * 7 + at / 256) as u8).collect()
}

fn cut<V: Version>() -> Run {
    let (form, message) = (V::form(Form::LongUplink), some_message());
    let (mut out, mut lengths) = (vec![0; 4480], vec![0; 30]);
    looped(move || {
        let (out, lengths) = (black_box(&mut out[..]), black_box(&mut lengths[..]));
        V::cut(black_box(form), START, black_box(&message), out, lengths)
    })
}

/// The message's frames and their lengths.
fn frames_to_join() -> (Vec<u8>, Vec<usize>) {
    let (mut frames, mut lengths) = (vec![0; 4480], vec![0; 30]);
    let (message, form) = (some_message(), Form::LongUplink);
    let made = message::cut(form, START, &message, &mut frames, &mut lengths).unwrap();
    frames.truncate(made.bytes);
    lengths.truncate(made.frames);
    (frames, lengths)
}

fn join<V: Version>() -> Run {
    let (frames, lengths) = frames_to_join();
    let (form, mut out) = (V::form(Form::LongUplink), vec![0; MESSAGE]);
    looped(move || {
        let (lengths, frames) = (black_box(&lengths[..]), black_box(&frames[..]));
        V::join(black_box(form), lengths, frames, black_box(&mut out[..]))
    })
}

/// The last byte of all the data, padding of the last frame, is wrong.
fn message_fault<V: Version>() -> Run {
    let (mut frames, lengths) = frames_to_join();
    *frames.last_mut().expect("there are frames") = 1;
    let form = V::form(Form::LongUplink);
    looped(move || {
        let (lengths, frames) = (black_box(&lengths[..]), black_box(&frames[..]));
        V::message_fault(black_box(form), lengths, frames, MESSAGE)
    })
}

/// A copy of the message's bytes, to be measured beside cutting and joining.
pub fn copy() -> Run {
    let (message, mut out) = (some_message(), vec![0; MESSAGE]);
    looped(move || {
        black_box(&mut out[..]).copy_from_slice(black_box(&message[..]));
        1
    })
}

/// Two lists of twelve entries, by turns: what one adds the other deletes, so that addresses
/// come and are lost each time.
fn route_lists() -> [Vec<u8>; 2] {
    let entry = |index: u8, add: bool| {
        let nd = index % 3;
        let first = 20 * index;
        let mut entry = vec![(index % 4) << 4 | u8::from(add) << 3 | nd];
        entry.extend((0..=nd).map(|at| first + 5 * at));
        entry
    };
    let list = |flip: u8| {
        (0..12)
            .flat_map(move |at| entry(at, at % 2 == flip))
            .collect()
    };
    [list(0), list(1)]
}

fn update<V: Version>() -> Run {
    let lists = route_lists();
    let (mut table, mut lost, mut turn) = (V::table([0; 256]), [0; 256], 0);
    looped(move || {
        let list = &lists[turn];
        turn ^= 1;
        V::update(
            black_box(&mut table),
            black_box(&list[..]),
            black_box(&mut lost),
        )
    })
}

/// Addresses with a few codes each; the last-used one is there, has failed, or is none.
fn choose<V: Version>() -> Run {
    let mut codes = [0; 256];
    for (address, set) in codes.iter_mut().enumerate() {
        *set = 0x8421u16.rotate_left(address as u32 % 4);
    }
    let asked: Vec<Asked> = (0..80u16)
        .map(|turn| Asked {
            address: (turn * 3) as u8,
            last: (turn % 8 != 0).then_some(turn % 16),
            failed: 1 << (turn % 5),
        })
        .collect();
    let (table, mut turn) = (V::table(codes), 0);
    looped(move || {
        if turn == asked.len() {
            turn = 0;
        }
        let now = asked[turn];
        turn += 1;
        V::choose(black_box(&table), now)
    })
}
