//! Lists of other lengths than the header's constants. A state of another length is 14, before all
//! else. A packet to write that has not 10 bytes is 1. A list for results that is too short is 5,
//! in its turn among the other refusals; one that is longer is taken, and its places past the
//! number keep what they held. Whatever is refused leaves every list as it was.

use pepperknoll::raw;
use plain::lent;

use crate::frames::check_fault;
use crate::support::{Call, Lent, Trial};

pub fn run(trial: &mut Trial) {
    orders_of_events();
    orders_of_updates();
    orders_of_frames();
    orders_of_writes();
    for length in wrong(3) {
        sender(trial, length);
        receiver(trial, length);
    }
    for length in wrong(146) {
        resequencer_state(trial, length);
    }
    for (state, tickets) in pairs(146, 32) {
        resequencer_events(trial, state, tickets);
    }
    for length in any(10) {
        write(trial, length);
        read(trial, length);
    }
    for length in wrong(512) {
        table(trial, length);
    }
    for (table, lost) in pairs(512, 256) {
        update(trial, table, lost);
    }
}

/// The right length, none, one less, one more, and some others.
fn any(right: usize) -> impl Iterator<Item = usize> {
    let some = [
        right,
        0,
        1,
        right / 2,
        right - 1,
        right + 1,
        right * 2,
        right + 256,
    ];
    some.into_iter()
}

fn wrong(right: usize) -> impl Iterator<Item = usize> {
    any(right).filter(move |&length| length != right)
}

/// The lengths of two lists, each right or not.
fn pairs(first: usize, second: usize) -> impl Iterator<Item = (usize, usize)> {
    any(first).flat_map(move |a| any(second).map(move |b| (a, b)))
}

/// What may stand in a list of some length: as good as can be, and anything.
fn contents(trial: &mut Trial, length: usize) -> [Vec<u8>; 2] {
    [vec![0; length], trial.random.bytes(length)]
}

/// Numbers in their fields and past them.
const NUMBERS: [u8; 4] = [0, 5, 99, 255];

/// A list of a wrong length where a state has to be: 14 whatever else is wrong.
#[track_caller]
fn refused(trial: &mut Trial, call: Call, answer: impl Into<u64>, lists: &[(&Lent<u8>, &[u8])]) {
    let answer = answer.into();
    trial.tally.saw(call, answer);
    assert_eq!(answer, 14);
    for (lent, before) in lists {
        lent.assert_holds(before, || "refused for its length".into());
    }
}

fn sender(trial: &mut Trial, length: usize) {
    for before in contents(trial, length) {
        let mut lent = Lent::of(&before);
        let state = lent.as_mut_ptr();
        // SAFETY: the list is lent with its own length.
        unsafe {
            let answer = raw::pk_sender_fresh(state, length);
            refused(trial, Call::SenderFresh, answer, &[(&lent, &before)]);
            let answer = raw::pk_sender_send(state, length);
            refused(trial, Call::SenderSend, answer, &[(&lent, &before)]);
            for pr in NUMBERS {
                let answer = raw::pk_sender_acknowledge(state, length, pr);
                refused(trial, Call::SenderAcknowledge, answer, &[(&lent, &before)]);
                let answer = raw::pk_sender_ready(state, length, pr);
                refused(trial, Call::SenderReady, answer, &[(&lent, &before)]);
                let answer = raw::pk_sender_not_ready(state, length, pr);
                refused(trial, Call::SenderNotReady, answer, &[(&lent, &before)]);
                let answer = raw::pk_sender_reject(state, length, pr);
                refused(trial, Call::SenderReject, answer, &[(&lent, &before)]);
            }
            let answer = raw::pk_sender_in_order(state, length);
            refused(trial, Call::SenderInOrder, answer, &[(&lent, &before)]);
        }
    }
}

fn receiver(trial: &mut Trial, length: usize) {
    for before in contents(trial, length) {
        let mut lent = Lent::of(&before);
        let state = lent.as_mut_ptr();
        // SAFETY: the list is lent with its own length.
        unsafe {
            let answer = raw::pk_receiver_fresh(state, length);
            refused(trial, Call::ReceiverFresh, answer, &[(&lent, &before)]);
            let answer = raw::pk_receiver_tell(state, length);
            refused(trial, Call::ReceiverTell, answer, &[(&lent, &before)]);
            for ps in NUMBERS {
                let answer = raw::pk_receiver_receive(state, length, ps);
                refused(trial, Call::ReceiverReceive, answer, &[(&lent, &before)]);
            }
            let answer = raw::pk_receiver_in_order(state, length);
            refused(trial, Call::ReceiverInOrder, answer, &[(&lent, &before)]);
        }
    }
}

fn resequencer_state(trial: &mut Trial, length: usize) {
    for before in contents(trial, length) {
        let mut lent = Lent::of(&before);
        let state = lent.as_mut_ptr();
        // SAFETY: the list is lent with its own length.
        unsafe {
            let answer = raw::pk_resequencer_fresh(state, length);
            refused(trial, Call::ResequencerFresh, answer, &[(&lent, &before)]);
            let answer = raw::pk_resequencer_in_order(state, length);
            refused(trial, Call::ResequencerInOrder, answer, &[(&lent, &before)]);
        }
    }
}

fn table(trial: &mut Trial, length: usize) {
    for before in contents(trial, length) {
        let mut lent = Lent::of(&before);
        let table = lent.as_mut_ptr();
        // SAFETY: the list is lent with its own length.
        unsafe {
            let answer = raw::pk_table_empty(table, length);
            refused(trial, Call::TableEmpty, answer, &[(&lent, &before)]);
            for address in NUMBERS {
                let answer = raw::pk_table_codes(table, length, address);
                refused(trial, Call::TableCodes, answer, &[(&lent, &before)]);
                let answer = raw::pk_table_count(table, length, address);
                refused(trial, Call::TableCount, answer, &[(&lent, &before)]);
                for last in [0, 16, 0xFFFF] {
                    let answer = raw::pk_table_choose(table, length, address, last, 0xFFFF);
                    refused(trial, Call::TableChoose, answer, &[(&lent, &before)]);
                }
            }
        }
    }
}

/// A resequencer's event, as the library's call takes it.
#[derive(Clone, Copy, Debug)]
enum Event {
    Arrive(u8),
    ClockEnd(u8),
}

const TICKET: u16 = 7;

impl Event {
    fn raw(self, state: &mut Lent<u8>, tickets: &mut Lent<u16>) -> u32 {
        let (s, sl) = (state.as_mut_ptr(), state.len());
        let (t, tl) = (tickets.as_mut_ptr(), tickets.len());
        // SAFETY: two lists apart, each lent with its own length.
        unsafe {
            match self {
                Event::Arrive(sn) => raw::pk_resequencer_arrive(s, sl, t, tl, sn, TICKET),
                Event::ClockEnd(sn) => raw::pk_resequencer_clock_end(s, sl, t, tl, sn),
            }
        }
    }

    fn plain(self, state: &mut [u8], tickets: &mut [u16]) -> u64 {
        match self {
            Event::Arrive(sn) => lent::resequencer_arrive(state, tickets, sn, TICKET),
            Event::ClockEnd(sn) => lent::resequencer_clock_end(state, tickets, sn),
        }
    }

    fn call(self) -> Call {
        match self {
            Event::Arrive(_) => Call::ResequencerArrive,
            Event::ClockEnd(_) => Call::ResequencerClockEnd,
        }
    }
}

/// A state with 3 and 5 held and a clock on each, as good as can be in so many bytes.
fn held(length: usize) -> Vec<u8> {
    let mut state = vec![0; 146];
    let mut places = [0; 32];
    for sn in [3, 5] {
        lent::resequencer_arrive(&mut state, &mut places, sn, 100);
    }
    state.resize(length, 0);
    state
}

fn resequencer_events(trial: &mut Trial, length: usize, places: usize) {
    let [zeros, random] = contents(trial, length);
    let numbers = NUMBERS.into_iter().chain([3, 4, 40, 64]);
    let events = numbers.flat_map(|sn| [Event::Arrive(sn), Event::ClockEnd(sn)]);
    for (event, before) in
        events.flat_map(|e| [&zeros, &random, &held(length)].map(|b| (e, b.clone())))
    {
        let what = || format!("{event:?}, {places} places, on {before:x?}");
        let (mut state, mut tickets) = (before.clone(), vec![0x1234; places]);
        let (mut lent, mut lent_tickets) = (Lent::of(&state), Lent::of(&tickets));
        let got = event.raw(&mut lent, &mut lent_tickets);
        trial.tally.saw(event.call(), got.into());
        let wanted = event.plain(&mut state, &mut tickets);
        assert_eq!(u64::from(got), wanted, "{}", what());
        lent.assert_holds(&state, what);
        lent_tickets.assert_holds(&tickets, what);
    }
}

/// The order of an event's refusals, number by number.
fn orders_of_events() {
    let (good, mut bad) = (held(146), held(146));
    bad[18] = 1; // a ticket of number 0, which is not held
    for (state, event, places, number) in [
        (&bad, Event::Arrive(99), 31, 14),
        (&bad, Event::ClockEnd(99), 31, 14),
        (&bad, Event::ClockEnd(9), 33, 14),
        (&held(145), Event::ClockEnd(99), 31, 14),
        (&held(147), Event::Arrive(0), 32, 14),
        (&good, Event::Arrive(64), 31, 1),
        (&good, Event::ClockEnd(64), 0, 1),
        (&good, Event::Arrive(0), 31, 5),
        (&good, Event::Arrive(40), 0, 5),   // old
        (&good, Event::Arrive(3), 31, 5),   // a duplicate
        (&good, Event::Arrive(8), 31, 5),   // early
        (&good, Event::ClockEnd(9), 31, 5), // no clock runs
        (&good, Event::ClockEnd(3), 31, 5), // one runs
        (&good, Event::ClockEnd(9), 32, 7),
        (&good, Event::ClockEnd(9), 33, 7),
        (&good, Event::ClockEnd(3), 33, 0),
        (&good, Event::Arrive(0), 64, 0),
    ] {
        let dirt = vec![0x1234; places];
        let (mut lent, mut tickets) = (Lent::of(state), Lent::of(&dirt));
        let got = event.raw(&mut lent, &mut tickets);
        let what = || format!("{event:?}, {places} places");
        assert_eq!(got & 0xFF, number, "{}", what());
        if number != 0 {
            assert_eq!(got, number, "{}", what());
            lent.assert_holds(state, what);
            tickets.assert_holds(&dirt, what);
        }
    }
    past_the_tickets(&good);
}

/// 33 and more places: 32 are written, the rest is kept.
fn past_the_tickets(good: &[u8]) {
    for (event, first) in [
        (Event::Arrive(0), [TICKET, 0]),
        (Event::Arrive(8), [0, 0]),
        (Event::Arrive(40), [0, 0]),
        (Event::ClockEnd(5), [100, 100]),
    ] {
        for places in [33, 34, 64, 200] {
            let (mut lent, mut tickets) = (Lent::of(good), Lent::of(&vec![0x1234; places]));
            assert_eq!(event.raw(&mut lent, &mut tickets) & 0xFF, 0);
            let mut wanted = vec![0; 32];
            wanted[..2].copy_from_slice(&first);
            wanted.resize(places, 0x1234);
            tickets.assert_holds(&wanted, || format!("{event:?}, {places} places"));
        }
    }
}

fn raw_update(table: &mut Lent<u8>, list: &Lent<u8>, lost: &mut Lent<u8>) -> u32 {
    let (t, tl) = (table.as_mut_ptr(), table.len());
    let (o, ol) = (lost.as_mut_ptr(), lost.len());
    // SAFETY: three lists apart, each lent with its own length.
    unsafe { raw::pk_table_update(t, tl, list.as_ptr(), list.len(), o, ol) }
}

fn update(trial: &mut Trial, length: usize, places: usize) {
    for before in contents(trial, length) {
        for list_before in [&[][..], &[0x58, 1], &[0x51, 0, 1], &[0x58], &[0x58; 300]] {
            let (mut table, mut lost) = (before.clone(), vec![0xEE; places]);
            let (mut lent, mut lent_lost) = (Lent::of(&table), Lent::of(&lost));
            let list = Lent::of(list_before);
            let got = raw_update(&mut lent, &list, &mut lent_lost);
            trial.tally.saw(Call::TableUpdate, got.into());
            let what = || format!("{length} bytes, {places} places, list {list_before:x?}");
            let wanted = lent::table_update(&mut table, list_before, &mut lost);
            assert_eq!(u64::from(got), wanted, "{}", what());
            lent.assert_holds(&table, what);
            lent_lost.assert_holds(&lost, what);
            list.assert_holds(list_before, what);
        }
    }
}

/// The order of an update's refusals, number by number, and what is past the report.
fn orders_of_updates() {
    let lose = &[0x50, 7][..]; // address 7 loses code 5, its only one
    for (length, list, places, number) in [
        (511, &[0x58][..], 255, 14),
        (513, lose, 256, 14),
        (512, &[0x58], 255, 5),
        (512, &[0x58; 256], 0, 5),
        (512, lose, 255, 5),
        (512, &[0x58], 256, 6),
        (512, &[0x58], 257, 6),
        (512, lose, 256, 0),
        (512, lose, 257, 0),
        (512, lose, 600, 0),
    ] {
        let (mut before, dirt) = (vec![0; length], vec![0xEE; places]);
        before[14] = 1 << 5;
        let (mut table, mut lost) = (Lent::of(&before), Lent::of(&dirt));
        let got = raw_update(&mut table, &Lent::of(list), &mut lost);
        let what = || format!("{length} bytes, {places} places, list {list:x?}");
        if number != 0 {
            assert_eq!(got, number, "{}", what());
            table.assert_holds(&before, what);
            lost.assert_holds(&dirt, what);
            continue;
        }
        assert_eq!(got, 1 << 8, "{}", what());
        let mut wanted = vec![0; 256];
        wanted[0] = 7;
        wanted.resize(places, 0xEE);
        lost.assert_holds(&wanted, what);
        table.assert_holds(&[0; 512], what);
    }
}

fn raw_write(form: u8, packet: &Lent<u8>, user: &Lent<u8>, out: &mut Lent<u8>) -> u64 {
    let (p, pl) = (packet.as_ptr(), packet.len());
    let (u, ul) = (user.as_ptr(), user.len());
    // SAFETY: three lists apart, each lent with its own length.
    unsafe { raw::pk_frame_write(form, p, pl, u, ul, out.as_mut_ptr(), out.len()) }
}

fn raw_read(form: u8, frame: &Lent<u8>, packet: &mut Lent<u8>) -> u64 {
    let (f, fl) = (frame.as_ptr(), frame.len());
    // SAFETY: two lists apart, each lent with its own length.
    unsafe { raw::pk_frame_read(form, f, fl, packet.as_mut_ptr(), packet.len()) }
}

fn raw_fault(form: u8, frame: &Lent<u8>) -> usize {
    // SAFETY: the list is lent with its own length.
    unsafe { raw::pk_frame_fault(form, frame.as_ptr(), frame.len()) }
}

/// The forms, and numbers that are none.
const FORMS: [u8; 8] = [0, 1, 2, 16, 17, 18, 19, 255];

/// A packet of some length to write; forms, user data and room are good or not.
fn write(trial: &mut Trial, length: usize) {
    for packet_before in contents(trial, length) {
        for form in FORMS {
            for (user_before, room) in [(vec![], 10), (vec![], 0), (vec![1; 300], 5)] {
                let mut out = vec![0xEE; room];
                let mut lent_out = Lent::of(&out);
                let (packet, user) = (Lent::of(&packet_before), Lent::of(&user_before));
                let got = raw_write(form, &packet, &user, &mut lent_out);
                trial.tally.saw(Call::FrameWrite, got);
                let what = || format!("form {form}, packet {packet_before:x?}, room {room}");
                let wanted = lent::frame_write(form, &packet_before, &user_before, &mut out);
                assert_eq!(got, wanted, "{}", what());
                assert!(length == 10 || got == 1, "{}", what());
                lent_out.assert_holds(&out, what);
                packet.assert_holds(&packet_before, what);
                user.assert_holds(&user_before, what);
            }
        }
    }
}

/// Frames: good ones of each kind, empty, no whole segments, wrong, too long for one segment.
fn some_frames() -> Vec<Vec<u8>> {
    let zeros_after = |front: &[u8], length| {
        let mut frame = front.to_vec();
        frame.resize(length, 0);
        frame
    };
    vec![
        zeros_after(&[0x80, 0, 3], 10),
        zeros_after(&[0x80, 0, 3], 7),
        zeros_after(&[0x58, 9, 0x32, 0x41, 0x8D, 0xA2, 7], 10),
        zeros_after(&[0x5C, 9, 0x32, 0x41], 10),
        zeros_after(&[0x80, 0, 3], 20),
        zeros_after(&[0x80, 0, 2], 10),
        vec![0xFF; 11],
        vec![],
        zeros_after(&[0x50, 0x89, 0x12, 0x41, 0xF5], 10),
        zeros_after(&[0x54, 0x09, 0x32, 0x41, 0x95], 10),
        zeros_after(&[0x60, 9, 0x37], 10),
        zeros_after(&[0x64, 9, 0x37], 7),
        zeros_after(&[0x68, 9, 0x30, 1, 2], 10),
        zeros_after(&[0x6C, 9, 0x30], 7),
        zeros_after(&[0x74, 0xC9, 0x3A], 10),
        zeros_after(&[0x7C, 9, 0x30], 10),
        zeros_after(&[0x7D, 9, 0x37], 20),
    ]
}

/// So many places for the packet of a read.
fn read(trial: &mut Trial, places: usize) {
    for form in FORMS {
        for frame_before in some_frames() {
            let mut packet = vec![0xEE; places];
            let mut lent_packet = Lent::of(&packet);
            let frame = Lent::of(&frame_before);
            let got = raw_read(form, &frame, &mut lent_packet);
            trial.tally.saw(Call::FrameRead, got);
            let what = || format!("form {form}, {places} places, frame {frame_before:x?}");
            let wanted = lent::frame_read(form, &frame_before, &mut packet);
            assert_eq!(got, wanted, "{}", what());
            check_fault(trial, form, &frame);
            lent_packet.assert_holds(&packet, what);
            frame.assert_holds(&frame_before, what);
        }
    }
}

/// The order of a read's refusals, number by number, and what is past the packet.
fn orders_of_frames() {
    let frames = some_frames();
    let (short, good, long, wrong) = (&frames[1], &frames[3], &frames[4], &frames[5]);
    for (form, frame, places, number, at) in [
        (18, &vec![], 9, 1, 0),
        (255, good, 9, 1, 0),
        (17, &vec![], 9, 2, 0),
        (17, &vec![0xFF; 11], 0, 2, 11),
        (17, wrong, 9, 3, 2),
        (1, long, 9, 13, 10),
        (1, long, 10, 13, 10),
        (17, good, 9, 5, 0), // no position knows of the places
        (17, good, 0, 5, 0),
        (0, good, 9, 2, 10), // no whole number of short segments
        (0, short, 9, 5, 0),
    ] {
        let dirt = vec![0xEE; places];
        let (lent, mut packet) = (Lent::of(frame), Lent::of(&dirt));
        let what = || format!("form {form}, {places} places, frame {frame:x?}");
        assert_eq!(raw_read(form, &lent, &mut packet), number, "{}", what());
        assert_eq!(raw_fault(form, &lent), at, "{}", what());
        packet.assert_holds(&dirt, what);
        lent.assert_holds(frame, what);
    }
    for places in [10, 11, 20, 200] {
        let mut packet = Lent::of(&vec![0xEE; places]);
        assert_eq!(raw_read(17, &Lent::of(good), &mut packet), 4 << 8);
        let mut wanted = vec![2, 0, 9, 3, 2, 0x41, 0, 0, 0, 0];
        wanted.resize(places, 0xEE);
        packet.assert_holds(&wanted, || format!("{places} places"));
        let mut packet = Lent::of(&vec![0xEE; places]);
        assert_eq!(raw_read(0, &Lent::of(short), &mut packet), 3 << 8);
        wanted[..10].fill(0);
        packet.assert_holds(&wanted, || format!("{places} places, short form"));
    }
}

/// The order of a write's refusals by the length of the packet, number by number: in the short form
/// a packet of ten bytes is 23 where another length is 1.
fn orders_of_writes() {
    for (form, length, user, room, number) in [
        (18, 10, 300, 0, 1),
        (17, 9, 300, 0, 1),
        (17, 11, 0, 10, 1),
        (17, 10, 300, 0, 13),
        (17, 10, 0, 9, 5),
        (0, 9, 300, 0, 1),
        (0, 9, 0, 7, 1),
        (0, 11, 0, 7, 1),
        (0, 0, 0, 0, 1),
        (0, 10, 300, 0, 23),
        (0, 10, 26, 28, 23),
        (0, 10, 25, 28, 23),
        (0, 10, 0, 6, 23),
        (0, 10, 0, 7, 23),
    ] {
        let dirt = vec![0xEE; room];
        let mut out = Lent::of(&dirt);
        let (packet, user) = (Lent::of(&vec![0; length]), Lent::of(&vec![1; user]));
        let what = || format!("form {form}, packet of {length}, room {room}");
        let got = raw_write(form, &packet, &user, &mut out);
        assert_eq!(got, number, "{}", what());
        out.assert_holds(&dirt, what);
    }
}
