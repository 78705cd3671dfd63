//! ROUTE packets: a table and optional data, each with its length in a byte before it.

use crate::frame::{check_end, Form, Sizes};
use crate::header::{Headed, ROUTE};
use crate::packet::{Packet, Route};
use crate::{Fault, Refusal};

/// Writes a ROUTE with this table and with optional data, which may be empty, or without; answers
/// the frame's length. Checks 1 (the form), then the short form (23), then 13 and 5. The table is
/// not looked into.
#[inline]
pub fn write(
    form: Form,
    init: bool,
    table: &[u8],
    data: Option<&[u8]>,
    out: &mut [u8],
) -> Result<usize, Refusal> {
    form.sizes()?;
    form.still_written()?;
    lay_out(form, init, table, data, out)
}

/// The frame by the layout, for every form; the writer refuses the short one. Checks 1, 13, 5.
#[inline]
pub fn lay_out(
    form: Form,
    init: bool,
    table: &[u8],
    data: Option<&[u8]>,
    out: &mut [u8],
) -> Result<usize, Refusal> {
    let Sizes { segment, largest } = form.sizes()?;
    let data_len = data.map_or(0, |data| 1 + data.len());
    let length = Route::HEADER + table.len() + data_len;
    if length > largest {
        return Err(Refusal::PacketTooLong);
    }
    let frame = out
        .get_mut(..length.next_multiple_of(segment))
        .ok_or(Refusal::OutputTooShort)?;
    // No form has packets over 160 bytes, so that each length fits its byte.
    frame[0] = ROUTE | u8::from(data.is_some()) << 1 | u8::from(init);
    frame[1] = table.len() as u8;
    let (place, after) = frame[Route::HEADER..].split_at_mut(table.len());
    place.copy_from_slice(table);
    if let Some(data) = data {
        after[0] = data.len() as u8;
        after[1..=data.len()].copy_from_slice(data);
    }
    frame[length..].fill(0);
    Ok(frame.len())
}

/// Reads a frame in whole segments that begins as a ROUTE does: its front, and all that follows
/// RTL. Checks 3, then 13.
#[inline]
pub(crate) fn read(sizes: Sizes, frame: &[u8]) -> Result<(Packet, &[u8]), Fault> {
    let route = Route {
        of: frame[0] & 2 != 0,
        init: frame[0] & 1 != 0,
        rtl: frame[1],
    };
    let length = length(route, frame).map_err(|at| Refusal::FormatError.at(at))?;
    check_end(frame, length, length.next_multiple_of(sizes.segment))?;
    if length > sizes.largest {
        return Err(Refusal::PacketTooLong.at(sizes.largest));
    }
    Ok((Packet::Route(route), &frame[Route::HEADER..length]))
}

/// The length of a ROUTE; or the position of the length in it that is wrong. RTL is so if the table
/// or the length after it runs past the frame, ODL if the optional data does.
#[inline]
fn length(route: Route, frame: &[u8]) -> Result<usize, usize> {
    let table_end = Route::HEADER + usize::from(route.rtl);
    if !route.of {
        return if table_end <= frame.len() {
            Ok(table_end)
        } else {
            Err(1)
        };
    }
    let odl = *frame.get(table_end).ok_or(1usize)?;
    let end = table_end + 1 + usize::from(odl);
    if end <= frame.len() {
        Ok(end)
    } else {
        Err(table_end)
    }
}
