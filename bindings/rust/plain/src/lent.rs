//! The calls of `bindings/c/pepperknoll.h` on lent lists, with their answers packed into one
//! number: a list of bytes is taken for the state or packet that it holds, a list for results may
//! be longer than needed, and a refused call leaves every list as it was.
//!
//! A list for results that is too short is refused with 5; a list that has to hold a state and has
//! another length is refused with 14.

use crate::frame::{self, Form};
use crate::message::{self, Start};
use crate::packed::{self, answer, last_used};
use crate::packet::{Packet, PACKET_BYTES};
use crate::resequencer::{Answer, Resequencer};
use crate::route::{self, Table};
use crate::route_packet;
use crate::window::{Receiver, Sender};
use crate::Refusal;

/// What is kept as a fixed number of bytes.
trait State: Sized {
    /// The state that a list holds; refused with 14 where it holds none.
    fn held_by(list: &[u8]) -> Result<Self, Refusal>;
    /// Writes the state to a list; refused with 14 where that has another length.
    fn put(&self, list: &mut [u8]) -> Result<(), Refusal>;
    fn in_order(&self) -> bool;
}

/// What a list of this length holds; refused with 14 where it has another.
fn fixed<const N: usize>(list: &[u8]) -> Result<[u8; N], Refusal> {
    list.try_into().map_err(|_| Refusal::NotInOrder)
}

fn put<const N: usize>(bytes: [u8; N], list: &mut [u8]) -> Result<(), Refusal> {
    let list: &mut [u8; N] = list.try_into().map_err(|_| Refusal::NotInOrder)?;
    *list = bytes;
    Ok(())
}

impl State for Sender {
    fn held_by(list: &[u8]) -> Result<Self, Refusal> {
        fixed(list).and_then(Sender::from_bytes)
    }

    fn put(&self, list: &mut [u8]) -> Result<(), Refusal> {
        put(self.to_bytes(), list)
    }

    fn in_order(&self) -> bool {
        Sender::in_order(self)
    }
}

impl State for Receiver {
    fn held_by(list: &[u8]) -> Result<Self, Refusal> {
        fixed(list).and_then(Receiver::from_bytes)
    }

    fn put(&self, list: &mut [u8]) -> Result<(), Refusal> {
        put(self.to_bytes(), list)
    }

    fn in_order(&self) -> bool {
        Receiver::in_order(self)
    }
}

impl State for Resequencer {
    fn held_by(list: &[u8]) -> Result<Self, Refusal> {
        fixed(list).map(|bytes| Resequencer::from_bytes(&bytes))
    }

    fn put(&self, list: &mut [u8]) -> Result<(), Refusal> {
        put(self.to_bytes(), list)
    }

    fn in_order(&self) -> bool {
        Resequencer::in_order(self)
    }
}

/// Any bytes of its length are a table.
impl State for Table {
    fn held_by(list: &[u8]) -> Result<Self, Refusal> {
        fixed(list).map(|bytes| Table::from_bytes(&bytes))
    }

    fn put(&self, list: &mut [u8]) -> Result<(), Refusal> {
        put(self.to_bytes(), list)
    }

    fn in_order(&self) -> bool {
        true
    }
}

fn fresh(state: impl State, list: &mut [u8]) -> u64 {
    answer(&state.put(list), |()| 0)
}

/// 0 for good order, else 14.
fn in_order<S: State>(list: &[u8]) -> u64 {
    let done = match S::held_by(list) {
        Ok(state) if state.in_order() => Ok(()),
        _ => Err(Refusal::NotInOrder),
    };
    answer(&done, |()| 0)
}

/// A call on the state that a list holds; the list keeps it where the call is refused.
fn on_state<S: State, T>(
    list: &mut [u8],
    call: impl FnOnce(&mut S) -> Result<T, Refusal>,
) -> Result<T, Refusal> {
    let mut state = S::held_by(list)?;
    let done = call(&mut state)?;
    state.put(list)?;
    Ok(done)
}

pub fn sender_fresh(state: &mut [u8]) -> u64 {
    fresh(Sender::fresh(), state)
}

pub fn sender_in_order(state: &[u8]) -> u64 {
    in_order::<Sender>(state)
}

pub fn sender_send(state: &mut [u8]) -> u64 {
    answer(&on_state(state, Sender::send), |&ps| ps.into())
}

pub fn sender_acknowledge(state: &mut [u8], pr: u8) -> u64 {
    let done = on_state(state, |end: &mut Sender| end.acknowledge(pr));
    answer(&done, |()| 0)
}

pub fn sender_ready(state: &mut [u8], pr: u8) -> u64 {
    let done = on_state(state, |end: &mut Sender| end.ready(pr));
    answer(&done, |()| 0)
}

pub fn sender_not_ready(state: &mut [u8], pr: u8) -> u64 {
    let done = on_state(state, |end: &mut Sender| end.not_ready(pr));
    answer(&done, |()| 0)
}

pub fn sender_reject(state: &mut [u8], pr: u8) -> u64 {
    let done = on_state(state, |end: &mut Sender| end.reject(pr));
    answer(&done, |()| 0)
}

pub fn receiver_fresh(state: &mut [u8]) -> u64 {
    fresh(Receiver::fresh(), state)
}

pub fn receiver_in_order(state: &[u8]) -> u64 {
    in_order::<Receiver>(state)
}

pub fn receiver_receive(state: &mut [u8], ps: u8) -> u64 {
    let due = on_state(state, |end: &mut Receiver| end.receive(ps));
    answer(&due, |&due| due.into())
}

pub fn receiver_tell(state: &mut [u8]) -> u64 {
    answer(&on_state(state, Receiver::tell), |&pr| pr.into())
}

pub fn resequencer_fresh(state: &mut [u8]) -> u64 {
    fresh(Resequencer::fresh(), state)
}

pub fn resequencer_in_order(state: &[u8]) -> u64 {
    in_order::<Resequencer>(state)
}

pub fn resequencer_arrive(state: &mut [u8], tickets: &mut [u16], sn: u8, ticket: u16) -> u64 {
    event(state, |link| link.arrive(sn, ticket, tickets))
}

pub fn resequencer_clock_end(state: &mut [u8], tickets: &mut [u16], sn: u8) -> u64 {
    event(state, |link| link.clock_end(sn, tickets))
}

fn event(state: &mut [u8], event: impl FnOnce(&mut Resequencer) -> Result<Answer, Refusal>) -> u64 {
    packed::event(&on_state(state, event))
}

/// Every refusal with 1 comes before 23, 13 and 5: that of the form, of the packet's bytes, and of
/// what they hold.
pub fn frame_write(form: u8, packet: &[u8], user: &[u8], out: &mut [u8]) -> u64 {
    let length = Form::from_number(form).and_then(|form| {
        let packet = Packet::from_bytes(packet)?;
        frame::write(form, &packet, user, out)
    });
    answer(&length, |&length| length as u64)
}

/// The two flags are numbers here, and without the optional data there is none to lend: all else is
/// 1, as a wrong form is.
pub fn route_write(form: u8, init: u8, of: u8, table: &[u8], data: &[u8], out: &mut [u8]) -> u64 {
    let length = Form::from_number(form).and_then(|form| {
        let init = flag(init)?;
        let data = match (flag(of)?, data) {
            (true, data) => Some(data),
            (false, []) => None,
            (false, _) => return Err(Refusal::OutOfRange),
        };
        route_packet::write(form, init, table, data, out)
    });
    answer(&length, |&length| length as u64)
}

fn flag(byte: u8) -> Result<bool, Refusal> {
    match byte {
        0 => Ok(false),
        1 => Ok(true),
        _ => Err(Refusal::OutOfRange),
    }
}

/// The places for the packet are looked at last, after all that the frame can be refused for.
pub fn frame_read(form: u8, frame: &[u8], packet: &mut [u8]) -> u64 {
    let read = Form::from_number(form).and_then(|form| {
        let read = frame::read(form, frame)?;
        let places: &mut [u8; PACKET_BYTES] =
            packet.first_chunk_mut().ok_or(Refusal::OutputTooShort)?;
        *places = read.0.to_bytes();
        Ok(read)
    });
    packed::reading(&read)
}

/// The position of what a read refuses the frame for; it knows of no places for the packet.
pub fn frame_fault(form: u8, frame: &[u8]) -> usize {
    Form::from_number(form).map_or(0, |form| frame::fault(form, frame))
}

pub fn message_cut(
    form: u8,
    start: Start,
    message: &[u8],
    out: &mut [u8],
    lengths: &mut [usize],
) -> u64 {
    let made =
        Form::from_number(form).and_then(|form| message::cut(form, start, message, out, lengths));
    packed::cutting(&made)
}

pub fn message_join(form: u8, lengths: &[usize], frames: &[u8], out: &mut [u8]) -> u64 {
    let length =
        Form::from_number(form).and_then(|form| Ok(message::join(form, lengths, frames, out)?));
    answer(&length, |&length| length as u64)
}

/// The position of what a joining into so many bytes refuses the frames for.
pub fn message_fault(form: u8, lengths: &[usize], frames: &[u8], out_len: usize) -> usize {
    Form::from_number(form).map_or(0, |form| message::fault(form, lengths, frames, out_len))
}

pub fn table_empty(table: &mut [u8]) -> u64 {
    fresh(Table::empty(), table)
}

pub fn table_codes(table: &[u8], address: u8) -> u64 {
    let codes = Table::held_by(table).map(|table| table.codes(address));
    answer(&codes, |&codes| codes.into())
}

pub fn table_count(table: &[u8], address: u8) -> u64 {
    let count = Table::held_by(table).map(|table| table.count(address));
    answer(&count, |&count| count.into())
}

pub fn table_choose(table: &[u8], address: u8, last: u16, failed: u16) -> u64 {
    let code =
        Table::held_by(table).and_then(|table| table.choose(address, last_used(last), failed));
    answer(&code, |&code| code.into())
}

pub fn table_update(table: &mut [u8], list: &[u8], lost: &mut [u8]) -> u64 {
    let count = on_state(table, |table: &mut Table| table.update(list, lost));
    answer(&count, |&count| count as u64)
}

pub fn choose(codes: u16, last: u16, failed: u16) -> u64 {
    let code = route::choose(codes, last_used(last), failed);
    answer(&code, |&code| code.into())
}

#[cfg(test)]
mod tests {
    use super::*;

    const GOOD: [u8; 10] = [0x80, 0, 3, 0, 0, 0, 0, 0, 0, 0];

    #[test]
    fn in_order_answers_0_or_14() {
        assert_eq!(sender_in_order(&[15, 15, 0]), 0);
        assert_eq!(sender_in_order(&[15, 15, 1]), 0);
        assert_eq!(sender_in_order(&[15, 15, 2]), 14);
        assert_eq!(sender_in_order(&[15, 16, 0]), 14);
        assert_eq!(sender_in_order(&[15, 15]), 14);
        assert_eq!(sender_in_order(&[15, 15, 0, 0]), 14);
        assert_eq!(receiver_in_order(&[0, 1, 0]), 0);
        assert_eq!(receiver_in_order(&[0, 2, 0]), 14);
        assert_eq!(receiver_in_order(&[1, 1, 0]), 14);
        assert_eq!(resequencer_in_order(&[0; 146]), 0);
        assert_eq!(resequencer_in_order(&[0; 147]), 14);
        assert_eq!(resequencer_in_order(&[64; 146]), 14);
    }

    #[test]
    fn a_choice_that_is_refused_answers_its_number_alone() {
        assert_eq!(choose(0, 0xFFFF, 0), 8);
        assert_eq!(choose(3, 0xFFFF, 3), 15);
        assert_eq!(table_choose(&[0; 512], 7, 0xFFFF, 0), 8);
        assert_eq!(Refusal::NoInterrogator.clearing(), Some((141, 162)));
        assert_eq!(Refusal::AllFailed.clearing(), None);
    }

    #[test]
    fn the_packet_of_a_read() {
        let (mut short, mut long) = ([7; 9], [7; 12]);
        assert_eq!(frame_read(18, &GOOD, &mut short), 1);
        assert_eq!(frame_read(17, &GOOD[..9], &mut short), 2);
        assert_eq!(frame_read(17, &[0; 10], &mut short), 3);
        assert_eq!(
            frame_read(1, &[&GOOD[..], &[0; 10]].concat(), &mut short),
            13
        );
        assert_eq!(frame_read(17, &GOOD, &mut short), 5);
        assert_eq!(short, [7; 9]);
        assert_eq!(frame_read(17, &GOOD, &mut long), 3 << 8);
        assert_eq!(long, [0, 0, 0, 0, 0, 0, 0, 0, 0, 0, 7, 7]);
    }

    #[test]
    fn the_packet_of_a_write() {
        let mut out = [7; 10];
        for length in [0, 9, 11, 20] {
            let packet = vec![0; length];
            assert_eq!(frame_write(17, &packet, &[], &mut out), 1);
            assert_eq!(frame_write(17, &packet, &[0; 200], &mut []), 1);
        }
        assert_eq!(out, [7; 10]);
        assert_eq!(frame_write(17, &[0; 10], &[0; 200], &mut []), 13);
        assert_eq!(frame_write(17, &[0; 10], &[], &mut out), 10 << 8);
        assert_eq!(out, GOOD);
    }

    #[test]
    fn a_route_s_flags_and_data() {
        let mut out = [7; 20];
        let mut write = |form, init, of, data: &[u8]| {
            let answer = route_write(form, init, of, &[8, 0x12], data, &mut out);
            (answer, out)
        };
        let refused = [
            (18, 0, 0, &[][..]),
            (17, 2, 0, &[]),
            (17, 0, 2, &[]),
            (17, 0, 0, &[9]),
        ];
        for (form, init, of, data) in refused {
            assert_eq!(write(form, init, of, data), (1, [7; 20]));
            assert_eq!(route_write(0, init, of, &[1; 300], data, &mut []) & 1, 1);
        }
        assert_eq!(write(0, 1, 1, &[9]), (23, [7; 20]));
        assert_eq!(write(1, 1, 1, &[9; 6]), (13, [7; 20]));
        let (answer, out) = write(17, 0, 1, &[]);
        assert_eq!(
            (answer, &out[..11]),
            (10 << 8, &[0x72, 2, 8, 0x12, 0, 0, 0, 0, 0, 0, 7][..])
        );
    }

    #[test]
    fn the_packet_of_a_route() {
        let (frame, mut packet) = ([0x73, 2, 8, 0x12, 1, 0xAA, 0, 0, 0, 0], [7; 11]);
        assert_eq!(frame_read(17, &frame, &mut packet), 4 << 16 | 2 << 8);
        assert_eq!(packet, [12, 1, 1, 2, 0, 0, 0, 0, 0, 0, 7]);
        packet[10] = 0;
        assert_eq!(frame_write(17, &packet[..10], &[], &mut [0; 20]), 1);
        assert_eq!(frame_write(0, &packet[..10], &[0; 300], &mut []), 1);
    }

    #[test]
    fn a_report_that_is_too_short() {
        let mut table = [0; 512];
        table[14] = 1;
        let (before, mut lost) = (table, [7; 255]);
        assert_eq!(table_update(&mut table[..511], &[8], &mut lost), 14);
        assert_eq!(table_update(&mut table, &[8], &mut lost), 5);
        assert_eq!((table, lost), (before, [7; 255]));
    }
}
