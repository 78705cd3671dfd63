use crate::answer::{unknown, values};
use crate::packet::PACKET_BYTES;
use crate::{Form, Refusal};

extern "C" {
    /// As the header declares it; [`raw`](crate::raw) has it with the other calls.
    #[allow(missing_docs)]
    pub fn pk_route_write(
        form: u8,
        init: u8,
        of: u8,
        table: *const u8,
        table_len: usize,
        data: *const u8,
        data_len: usize,
        out: *mut u8,
        out_len: usize,
    ) -> u64;
}

/// A ROUTE packet: a table and optional data. It has no link sequence number and no channel.
#[derive(Clone, Copy, Debug, PartialEq, Eq, Hash)]
pub struct Route<'a> {
    /// The IN bit.
    pub init: bool,
    /// The table. Neither writing nor reading looks into it; it is a list for
    /// [`Table::update`](crate::Table::update).
    pub table: &'a [u8],
    /// The optional data. None and none of its bytes are two values, each read as it was written.
    pub data: Option<&'a [u8]>,
}

impl<'a> Route<'a> {
    /// The kind of a ROUTE among the bytes of a packet.
    pub(crate) const KIND: u8 = 12;

    /// What the library read: the packet's bytes, and of the frame all that follows RTL.
    #[inline]
    pub(crate) fn of(packet: [u8; PACKET_BYTES], rest: &'a [u8]) -> Self {
        let [_, of, init, rtl, ..] = packet;
        let (table, after) = rest.split_at(rtl.into());
        let data = match (of, after) {
            (0, []) => None,
            (1, [_, data @ ..]) => Some(data),
            _ => unknown(of.into()),
        };
        let init = init != 0;
        Route { init, table, data }
    }
}

/// Writes a ROUTE packet as one frame to the front of `out`; answers the frame's length. Bytes
/// beyond the frame keep what they held. Refused with 1 (the form), 23 (the short uplink form), 13
/// (a table or data over 255 bytes is too long for every form), 5.
///
/// ```
/// use pepperknoll::{read_frame, write_route, Form, Read, Refusal, Route};
///
/// let route = Route {
///     init: true,
///     table: &[0x59, 0x12, 0x40],
///     data: None,
/// };
/// let mut out = [0xEE; 12];
/// assert_eq!(write_route(Form::LongUplink, &route, &mut out), Ok(10));
/// assert_eq!(out, [0x71, 3, 0x59, 0x12, 0x40, 0, 0, 0, 0, 0, 0xEE, 0xEE]);
/// assert_eq!(read_frame(Form::LongUplink, &out[..10]), Ok(Read::Route(route)));
///
/// let with_data = Route { data: Some(b"hi"), ..route };
/// assert_eq!(write_route(Form::LongUplink, &with_data, &mut out), Ok(10));
/// assert_eq!(&out[..8], b"\x73\x03\x59\x12\x40\x02hi");
/// let refused = write_route(Form::ShortUplink, &with_data, &mut out);
/// assert_eq!(refused, Err(Refusal::ShortForm));
/// let too_long = Route { table: &[0; 256], ..route };
/// let refused = write_route(Form::LongUplink, &too_long, &mut out);
/// assert_eq!(refused, Err(Refusal::PacketTooLong));
/// ```
#[inline]
pub fn write_route(form: Form, route: &Route<'_>, out: &mut [u8]) -> Result<usize, Refusal> {
    let Route { init, table, data } = *route;
    let (of, data) = (data.is_some(), data.unwrap_or_default());
    // SAFETY: each list is lent whole with its own length; `out` is borrowed alone, so it
    // overlaps neither the table nor the data.
    let answer = unsafe {
        pk_route_write(
            form.number(),
            init.into(),
            of.into(),
            table.as_ptr(),
            table.len(),
            data.as_ptr(),
            data.len(),
            out.as_mut_ptr(),
            out.len(),
        )
    };
    values(answer).map(|length| length as usize)
}
