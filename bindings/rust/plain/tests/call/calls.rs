//! The calls of `bindings/c/pepperknoll.h`, made by [`plain::lent`]: the arguments are read from
//! the words of a line, and what is printed is the answer and the lists that the call may write.

use plain::lent;
use plain::message::Start;
use plain::number::{link_distance, link_next, packet_distance, packet_next};

use crate::line::{Printed, Reason, Words};

type Bytes = Vec<u8>;
type Tickets = Vec<u16>;
type Lengths = Vec<usize>;

/// Hex digits of an answer, by its type in the header.
const U8: usize = 2;
const U32: usize = 8;
const U64: usize = 16;

/// Makes the call of a line.
pub fn make(name: &[u8], words: Words<'_>) -> Result<Printed, Reason> {
    match name {
        b"pk_link_distance" => distance(words, link_distance),
        b"pk_link_next" => next(words, link_next),
        b"pk_packet_distance" => distance(words, packet_distance),
        b"pk_packet_next" => next(words, packet_next),
        b"pk_sender_fresh" => on_state(words, lent::sender_fresh),
        b"pk_sender_in_order" => in_order(words, lent::sender_in_order),
        b"pk_sender_send" => on_state(words, lent::sender_send),
        b"pk_sender_acknowledge" => with_number(words, lent::sender_acknowledge),
        b"pk_sender_ready" => with_number(words, lent::sender_ready),
        b"pk_sender_not_ready" => with_number(words, lent::sender_not_ready),
        b"pk_sender_reject" => with_number(words, lent::sender_reject),
        b"pk_receiver_fresh" => on_state(words, lent::receiver_fresh),
        b"pk_receiver_in_order" => in_order(words, lent::receiver_in_order),
        b"pk_receiver_receive" => with_number(words, lent::receiver_receive),
        b"pk_receiver_tell" => on_state(words, lent::receiver_tell),
        b"pk_resequencer_fresh" => on_state(words, lent::resequencer_fresh),
        b"pk_resequencer_in_order" => in_order(words, lent::resequencer_in_order),
        b"pk_resequencer_arrive" => resequencer_arrive(words),
        b"pk_resequencer_clock_end" => resequencer_clock_end(words),
        b"pk_frame_write" => frame_write(words),
        b"pk_route_write" => route_write(words),
        b"pk_frame_read" => frame_read(words),
        b"pk_frame_fault" => frame_fault(words),
        b"pk_message_cut" => message_cut(words),
        b"pk_message_join" => message_join(words),
        b"pk_message_fault" => message_fault(words),
        b"pk_table_empty" => on_state(words, lent::table_empty),
        b"pk_table_codes" => at_address(words, lent::table_codes),
        b"pk_table_count" => at_address(words, lent::table_count),
        b"pk_table_choose" => table_choose(words),
        b"pk_table_update" => table_update(words),
        b"pk_choose" => choose(words),
        _ => Err("no such call".into()),
    }
}

fn distance(words: Words<'_>, distance: fn(u8, u8) -> u8) -> Result<Printed, Reason> {
    let (from, to): (u8, u8) = words.arguments()?;
    Ok(Printed::answer(distance(from, to).into(), U8))
}

fn next(words: Words<'_>, next: fn(u8) -> u8) -> Result<Printed, Reason> {
    let (number,): (u8,) = words.arguments()?;
    Ok(Printed::answer(next(number).into(), U8))
}

/// A call that takes a state alone, and may write it.
fn on_state(words: Words<'_>, call: fn(&mut [u8]) -> u64) -> Result<Printed, Reason> {
    let (mut state,): (Bytes,) = words.arguments()?;
    Ok(Printed::answer(call(&mut state), U32).list(&state))
}

/// A call that takes a state and a number, and may write the state.
fn with_number(words: Words<'_>, call: fn(&mut [u8], u8) -> u64) -> Result<Printed, Reason> {
    let (mut state, number): (Bytes, u8) = words.arguments()?;
    Ok(Printed::answer(call(&mut state, number), U32).list(&state))
}

fn in_order(words: Words<'_>, call: fn(&[u8]) -> u64) -> Result<Printed, Reason> {
    let (state,): (Bytes,) = words.arguments()?;
    Ok(Printed::answer(call(&state), U32))
}

fn resequencer_arrive(words: Words<'_>) -> Result<Printed, Reason> {
    let (mut state, mut tickets, sn, ticket): (Bytes, Tickets, u8, u16) = words.arguments()?;
    let answer = lent::resequencer_arrive(&mut state, &mut tickets, sn, ticket);
    Ok(Printed::answer(answer, U32).list(&state).list(&tickets))
}

fn resequencer_clock_end(words: Words<'_>) -> Result<Printed, Reason> {
    let (mut state, mut tickets, sn): (Bytes, Tickets, u8) = words.arguments()?;
    let answer = lent::resequencer_clock_end(&mut state, &mut tickets, sn);
    Ok(Printed::answer(answer, U32).list(&state).list(&tickets))
}

fn frame_write(words: Words<'_>) -> Result<Printed, Reason> {
    let (form, packet, user, mut out): (u8, Bytes, Bytes, Bytes) = words.arguments()?;
    let answer = lent::frame_write(form, &packet, &user, &mut out);
    Ok(Printed::answer(answer, U64).list(&out))
}

fn route_write(words: Words<'_>) -> Result<Printed, Reason> {
    type Arguments = (u8, u8, u8, Bytes, Bytes, Bytes);
    let (form, init, of, table, data, mut out): Arguments = words.arguments()?;
    let answer = lent::route_write(form, init, of, &table, &data, &mut out);
    Ok(Printed::answer(answer, U64).list(&out))
}

fn frame_read(words: Words<'_>) -> Result<Printed, Reason> {
    let (form, frame, mut packet): (u8, Bytes, Bytes) = words.arguments()?;
    let answer = lent::frame_read(form, &frame, &mut packet);
    Ok(Printed::answer(answer, U64).list(&packet))
}

fn frame_fault(words: Words<'_>) -> Result<Printed, Reason> {
    let (form, frame): (u8, Bytes) = words.arguments()?;
    Ok(Printed::position(lent::frame_fault(form, &frame)))
}

fn message_cut(words: Words<'_>) -> Result<Printed, Reason> {
    type Arguments = (u8, u8, u8, u8, u8, Bytes, Bytes, Lengths);
    let (form, sn, ps, pr, ch, message, mut out, mut lengths): Arguments = words.arguments()?;
    let start = Start { sn, ps, pr, ch };
    let answer = lent::message_cut(form, start, &message, &mut out, &mut lengths);
    Ok(Printed::answer(answer, U64).list(&out).list(&lengths))
}

fn message_join(words: Words<'_>) -> Result<Printed, Reason> {
    let (form, lengths, frames, mut out): (u8, Lengths, Bytes, Bytes) = words.arguments()?;
    let answer = lent::message_join(form, &lengths, &frames, &mut out);
    Ok(Printed::answer(answer, U64).list(&out))
}

/// The output is not lent: its length is a number.
fn message_fault(words: Words<'_>) -> Result<Printed, Reason> {
    let (form, lengths, frames, out_len): (u8, Lengths, Bytes, usize) = words.arguments()?;
    let at = lent::message_fault(form, &lengths, &frames, out_len);
    Ok(Printed::position(at))
}

/// A question about one address of a table.
fn at_address(words: Words<'_>, call: fn(&[u8], u8) -> u64) -> Result<Printed, Reason> {
    let (table, address): (Bytes, u8) = words.arguments()?;
    Ok(Printed::answer(call(&table, address), U32))
}

fn table_choose(words: Words<'_>) -> Result<Printed, Reason> {
    let (table, address, last, failed): (Bytes, u8, u16, u16) = words.arguments()?;
    let answer = lent::table_choose(&table, address, last, failed);
    Ok(Printed::answer(answer, U32))
}

fn table_update(words: Words<'_>) -> Result<Printed, Reason> {
    let (mut table, list, mut lost): (Bytes, Bytes, Bytes) = words.arguments()?;
    let answer = lent::table_update(&mut table, &list, &mut lost);
    Ok(Printed::answer(answer, U32).list(&table).list(&lost))
}

fn choose(words: Words<'_>) -> Result<Printed, Reason> {
    let (codes, last, failed): (u16, u16, u16) = words.arguments()?;
    Ok(Printed::answer(lent::choose(codes, last, failed), U32))
}
