//! The kinds of packets, as far as tests need to know them to make packets and frames of each and
//! to damage them where it matters.

use plain::packet::PACKET_BYTES;

use crate::support::Random;

/// A kind of packet. What depends on the direction stands twice, uplink first.
#[derive(Debug)]
pub struct Kind {
    /// Its number in the interface.
    pub number: u8,
    /// The first byte of its frames; DATA has M and SN in it too.
    pub first: u8,
    /// The bits of each field, in the order of the packet's bytes; 0 where it has no place.
    widths: [&'static [u32]; 2],
    /// The header's length; its last byte holds LV if there is user data.
    pub header: usize,
    pub has_user: bool,
    /// The bits of the header that are 0, by byte.
    fill: [&'static [(usize, u8)]; 2],
}

/// All kinds that `pk_frame_write` writes, by number.
#[rustfmt::skip]
pub const KINDS: [Kind; 12] = [
    kind(0, 0x80, 3, true, both(&[1, 6, 4, 4, 4]), both(&[])),
    kind(1, 0x58, 7, true, both(&[2, 6, 4, 4, 8, 8, 8, 1, 1]), both(&[(6, 0x60)])),
    kind(2, 0x5C, 4, false, both(&[2, 6, 4, 4, 8]), both(&[])),
    kind(3, 0x50, 5, true, [&[1, 6, 2, 0, 4, 8, 1, 2, 1], &[1, 6, 0, 4, 4, 8, 1, 2, 1]],
         [&[(1, 0x40), (2, 0xC0)], &[(1, 0x40)]]),
    kind(4, 0x54, 5, true, [&[0, 6, 4, 4, 8, 1, 1], &[2, 6, 4, 4, 8, 1, 1]],
         [&[(1, 0xC0), (4, 0x60)], &[(4, 0x60)]]),
    kind(5, 0x60, 3, false, both(&[6, 4, 4]), both(&[(1, 0xC0)])),
    kind(6, 0x64, 3, false, both(&[6, 4, 4]), both(&[(1, 0xC0)])),
    kind(7, 0x7D, 3, false, both(&[6, 4, 4]), both(&[(1, 0xC0)])),
    kind(8, 0x74, 3, true, both(&[1, 1, 6, 4]), both(&[])),
    kind(9, 0x7C, 3, false, both(&[6, 4]), both(&[(1, 0xC0), (2, 0x0F)])),
    kind(10, 0x68, 5, false, both(&[6, 4, 8, 8]), both(&[(1, 0xC0), (2, 0x0F)])),
    kind(11, 0x6C, 3, false, both(&[6, 4]), both(&[(1, 0xC0), (2, 0x0F)])),
];

/// What else makes frames to be damaged: kinds that no packet's bytes are written for.
pub const OTHER_FRAMES: &[fn(&mut Random, u8) -> Vec<u8>] = &[crate::routes_frames::some_route];

const fn kind(
    number: u8,
    first: u8,
    header: usize,
    has_user: bool,
    widths: [&'static [u32]; 2],
    fill: [&'static [(usize, u8)]; 2],
) -> Kind {
    Kind {
        number,
        first,
        widths,
        header,
        has_user,
        fill,
    }
}

const fn both<T>(same: &'static [T]) -> [&'static [T]; 2] {
    [same, same]
}

/// 0 for an uplink form and for what is no form, 1 for a downlink form.
fn direction(form: u8) -> usize {
    usize::from((1..=16).contains(&form))
}

impl Kind {
    /// The kind of a frame by its first byte.
    pub fn of(first: u8) -> Option<&'static Kind> {
        let wanted = if first >= 0x80 { 0x80 } else { first };
        KINDS.iter().find(|kind| kind.first == wanted)
    }

    pub fn widths(&self, form: u8) -> &'static [u32] {
        self.widths[direction(form)]
    }

    /// The fill in a byte of the header.
    pub fn fill_at(&self, form: u8, at: usize) -> u8 {
        let bytes = self.fill[direction(form)].iter();
        bytes.filter(|fill| fill.0 == at).map(|fill| fill.1).sum()
    }

    pub fn has_fill(&self, form: u8) -> bool {
        !self.fill[direction(form)].is_empty()
    }

    /// The byte with LV.
    pub fn lv_place(&self) -> Option<usize> {
        self.has_user.then_some(self.header - 1)
    }

    /// The packet's bytes with the largest value in each; a byte without a field has 0.
    pub fn largest(&self, form: u8) -> [u8; PACKET_BYTES] {
        let mut bytes = [0; PACKET_BYTES];
        bytes[0] = self.number;
        for (place, &bits) in bytes[1..].iter_mut().zip(self.widths(form)) {
            *place = ((1u16 << bits) - 1) as u8;
        }
        bytes
    }

    /// The packet's bytes, each mostly in its field.
    pub fn some_bytes(&self, random: &mut Random, form: u8) -> Vec<u8> {
        let mut bytes = vec![self.number];
        for &bits in self.widths(form) {
            bytes.push(match bits {
                8 => random.byte(),
                _ => random.field(bits),
            });
        }
        bytes.resize(PACKET_BYTES, 0);
        bytes
    }

    /// A good header with any values, and any bytes after it.
    pub fn some_front(&self, random: &mut Random, form: u8, length: usize) -> Vec<u8> {
        let mut frame = random.bytes(length);
        frame[0] = match self.first {
            0x80 => frame[0] | 0x80, // any M and SN
            first => first,
        };
        for (at, byte) in frame.iter_mut().enumerate().take(self.header) {
            *byte &= !self.fill_at(form, at);
        }
        frame
    }
}
