//! The headers of packets in a frame, first bit highest: which values fit, the bytes that they
//! make, and what such bytes say.

use crate::packet::{
    CallAccept, CallRequest, ClearConfirmation, ClearRequest, Confirmation, Data, Interrupt,
    Packet, Receipt, Reset, Route,
};

/// Which way a frame goes. The two CALL packets have a layout for each.
#[derive(Clone, Copy, Debug, PartialEq, Eq)]
pub enum Way {
    Up,
    Down,
}

/// First bytes. DATA is known by DP 1 alone, and has M and SN behind it. All others begin with DP
/// 0, MP 1, then SP and ST of two bits each, and two bits of fill.
pub(crate) const DATA: u8 = 0x80;
pub(crate) const CALL_REQUEST: u8 = 0x50; // SP 1, ST 0
pub(crate) const CALL_ACCEPT: u8 = 0x54;
pub(crate) const CLEAR_REQUEST: u8 = 0x58;
pub(crate) const CLEAR_CONFIRMATION: u8 = 0x5C;
pub(crate) const RECEIVE_READY: u8 = 0x60; // SP 2, ST 0
pub(crate) const RECEIVE_NOT_READY: u8 = 0x64;
pub(crate) const RESET: u8 = 0x68;
pub(crate) const RESET_CONFIRMATION: u8 = 0x6C;
/// SP 3, ST 0, and OF and IN in place of the fill.
pub(crate) const ROUTE: u8 = 0x70;
pub(crate) const ROUTE_LAST: u8 = 0x73;
pub(crate) const INTERRUPT: u8 = 0x74;
/// ST 3 of SP 3 has SS in place of the fill: 0 and 1 are known.
pub(crate) const INTERRUPT_CONFIRMATION: u8 = 0x7C;
pub(crate) const REJECT: u8 = 0x7D;

/// What a packet carries in its header.
pub(crate) trait Headed {
    /// The header's length.
    const HEADER: usize;
}

/// So many bytes hold every header, and every frame has them.
pub(crate) const FRONT: usize = 7;
type Front = [u8; FRONT];

impl Packet {
    #[inline]
    pub fn header_len(&self) -> usize {
        match self {
            Packet::Data(_) => Data::HEADER,
            Packet::ClearRequest(_) => ClearRequest::HEADER,
            Packet::ClearConfirmation(_) => ClearConfirmation::HEADER,
            Packet::CallRequest(_) => CallRequest::HEADER,
            Packet::CallAccept(_) => CallAccept::HEADER,
            Packet::ReceiveReady(_) | Packet::ReceiveNotReady(_) | Packet::Reject(_) => {
                Receipt::HEADER
            }
            Packet::Interrupt(_) => Interrupt::HEADER,
            Packet::InterruptConfirmation(_) | Packet::ResetConfirmation(_) => Confirmation::HEADER,
            Packet::Reset(_) => Reset::HEADER,
            Packet::Route(_) => Route::HEADER,
        }
    }

    /// Whether the header ends with LV, and user data comes after it.
    #[inline]
    pub fn has_user(&self) -> bool {
        matches!(
            self,
            Packet::Data(_)
                | Packet::ClearRequest(_)
                | Packet::CallRequest(_)
                | Packet::CallAccept(_)
                | Packet::Interrupt(_)
        )
    }

    /// Whether each value fits its field, and what has no place is 0. A ROUTE is not written so.
    #[inline]
    pub(crate) fn fits(&self, way: Way) -> bool {
        match self {
            Packet::Data(packet) => packet.fits(),
            Packet::ClearRequest(packet) => packet.fits(),
            Packet::ClearConfirmation(packet) => packet.fits(),
            Packet::CallRequest(packet) => packet.fits(way),
            Packet::CallAccept(packet) => packet.fits(way),
            Packet::ReceiveReady(packet)
            | Packet::ReceiveNotReady(packet)
            | Packet::Reject(packet) => packet.fits(),
            Packet::Interrupt(packet) => packet.fits(),
            Packet::Reset(packet) => packet.fits(),
            Packet::InterruptConfirmation(packet) | Packet::ResetConfirmation(packet) => {
                packet.fits()
            }
            Packet::Route(_) => false,
        }
    }

    /// Puts the header of a packet that fits to the front of a frame.
    #[inline]
    pub(crate) fn put_header(&self, way: Way, lv: u8, frame: &mut [u8]) {
        match self {
            Packet::Data(packet) => put(packet.header(lv), frame),
            Packet::ClearRequest(packet) => put(packet.header(lv), frame),
            Packet::ClearConfirmation(packet) => put(packet.header(), frame),
            Packet::CallRequest(packet) => put(packet.header(way, lv), frame),
            Packet::CallAccept(packet) => put(packet.header(lv), frame),
            Packet::ReceiveReady(packet) => put(packet.header(RECEIVE_READY), frame),
            Packet::ReceiveNotReady(packet) => put(packet.header(RECEIVE_NOT_READY), frame),
            Packet::Reject(packet) => put(packet.header(REJECT), frame),
            Packet::Interrupt(packet) => put(packet.header(lv), frame),
            Packet::InterruptConfirmation(packet) => {
                put(packet.header(INTERRUPT_CONFIRMATION), frame)
            }
            Packet::Reset(packet) => put(packet.header(), frame),
            Packet::ResetConfirmation(packet) => put(packet.header(RESET_CONFIRMATION), frame),
            Packet::Route(_) => unreachable!("a ROUTE does not fit"),
        }
    }
}

#[inline]
fn put<const HEADER: usize>(header: [u8; HEADER], frame: &mut [u8]) {
    frame[..HEADER].copy_from_slice(&header);
}

/// Refuses fill that is not 0: these bits of this byte.
#[inline]
fn fill(front: &Front, at: usize, bits: u8) -> Result<(), usize> {
    match front[at] & bits {
        0 => Ok(()),
        _ => Err(at),
    }
}

/// A bit of a byte.
#[inline]
fn bit(byte: u8, mask: u8) -> bool {
    byte & mask != 0
}

impl Headed for Data {
    const HEADER: usize = 3;
}

impl Data {
    #[inline]
    fn fits(&self) -> bool {
        self.sn <= 63 && self.ps <= 15 && self.pr <= 15 && self.ch <= 15
    }

    #[inline]
    fn header(&self, lv: u8) -> [u8; Self::HEADER] {
        let Data { m, sn, ps, pr, ch } = *self;
        [DATA | u8::from(m) << 6 | sn, ps << 4 | pr, ch << 4 | lv]
    }

    #[inline]
    pub(crate) fn read(front: &Front) -> Self {
        Data {
            m: bit(front[0], 0x40),
            sn: front[0] & 0x3F,
            ps: front[1] >> 4,
            pr: front[1] & 0x0F,
            ch: front[2] >> 4,
        }
    }
}

impl Headed for ClearRequest {
    const HEADER: usize = 7;
}

impl ClearRequest {
    #[inline]
    fn fits(&self) -> bool {
        self.tc <= 3 && self.sn <= 63 && self.ch <= 15 && self.am <= 15
    }

    #[inline]
    fn header(&self, lv: u8) -> [u8; Self::HEADER] {
        [
            CLEAR_REQUEST,
            self.tc << 6 | self.sn,
            self.ch << 4 | self.am,
            self.ag,
            self.cc,
            self.dc,
            u8::from(self.s) << 7 | u8::from(self.f) << 4 | lv,
        ]
    }

    #[inline]
    pub(crate) fn read(front: &Front) -> Result<Self, usize> {
        fill(front, 6, 0x60)?;
        Ok(ClearRequest {
            tc: front[1] >> 6,
            sn: front[1] & 0x3F,
            ch: front[2] >> 4,
            am: front[2] & 0x0F,
            ag: front[3],
            cc: front[4],
            dc: front[5],
            s: bit(front[6], 0x80),
            f: bit(front[6], 0x10),
        })
    }
}

impl Headed for ClearConfirmation {
    const HEADER: usize = 4;
}

impl ClearConfirmation {
    #[inline]
    fn fits(&self) -> bool {
        self.tc <= 3 && self.sn <= 63 && self.ch <= 15 && self.am <= 15
    }

    #[inline]
    fn header(&self) -> [u8; Self::HEADER] {
        let ClearConfirmation { tc, sn, ch, am, ag } = *self;
        [CLEAR_CONFIRMATION, tc << 6 | sn, ch << 4 | am, ag]
    }

    #[inline]
    pub(crate) fn read(front: &Front) -> Self {
        ClearConfirmation {
            tc: front[1] >> 6,
            sn: front[1] & 0x3F,
            ch: front[2] >> 4,
            am: front[2] & 0x0F,
            ag: front[3],
        }
    }
}

impl Headed for CallRequest {
    const HEADER: usize = 5;
}

impl CallRequest {
    #[inline]
    fn fits(&self, way: Way) -> bool {
        let (tc_most, ch_most) = match way {
            Way::Up => (3, 0),
            Way::Down => (0, 15),
        };
        self.sn <= 63 && self.tc <= tc_most && self.ch <= ch_most && self.am <= 15 && self.fs <= 3
    }

    /// The third byte begins with two bits of fill and TC on the uplink, with CH on the downlink.
    #[inline]
    fn header(&self, way: Way, lv: u8) -> [u8; Self::HEADER] {
        let channel = match way {
            Way::Up => self.tc,
            Way::Down => self.ch,
        };
        [
            CALL_REQUEST,
            u8::from(self.p) << 7 | self.sn,
            channel << 4 | self.am,
            self.ag,
            u8::from(self.s) << 7 | self.fs << 5 | u8::from(self.f) << 4 | lv,
        ]
    }

    #[inline]
    pub(crate) fn read(way: Way, front: &Front) -> Result<Self, usize> {
        fill(front, 1, 0x40)?;
        let (tc, ch) = match way {
            Way::Up => {
                fill(front, 2, 0xC0)?;
                (front[2] >> 4, 0)
            }
            Way::Down => (0, front[2] >> 4),
        };
        Ok(CallRequest {
            p: bit(front[1], 0x80),
            sn: front[1] & 0x3F,
            tc,
            ch,
            am: front[2] & 0x0F,
            ag: front[3],
            s: bit(front[4], 0x80),
            fs: front[4] >> 5 & 3,
            f: bit(front[4], 0x10),
        })
    }
}

impl Headed for CallAccept {
    const HEADER: usize = 5;
}

impl CallAccept {
    #[inline]
    fn fits(&self, way: Way) -> bool {
        let tc_most = match way {
            Way::Up => 0,
            Way::Down => 3,
        };
        self.tc <= tc_most && self.sn <= 63 && self.ch <= 15 && self.am <= 15
    }

    /// On the uplink TC is 0, as the fill in its place has to be.
    #[inline]
    fn header(&self, lv: u8) -> [u8; Self::HEADER] {
        [
            CALL_ACCEPT,
            self.tc << 6 | self.sn,
            self.ch << 4 | self.am,
            self.ag,
            u8::from(self.s) << 7 | u8::from(self.f) << 4 | lv,
        ]
    }

    #[inline]
    pub(crate) fn read(way: Way, front: &Front) -> Result<Self, usize> {
        if way == Way::Up {
            fill(front, 1, 0xC0)?;
        }
        fill(front, 4, 0x60)?;
        Ok(CallAccept {
            tc: front[1] >> 6,
            sn: front[1] & 0x3F,
            ch: front[2] >> 4,
            am: front[2] & 0x0F,
            ag: front[3],
            s: bit(front[4], 0x80),
            f: bit(front[4], 0x10),
        })
    }
}

impl Headed for Receipt {
    const HEADER: usize = 3;
}

impl Receipt {
    #[inline]
    fn fits(&self) -> bool {
        self.sn <= 63 && self.ch <= 15 && self.pr <= 15
    }

    #[inline]
    fn header(&self, first: u8) -> [u8; Self::HEADER] {
        [first, self.sn, self.ch << 4 | self.pr]
    }

    #[inline]
    pub(crate) fn read(front: &Front) -> Result<Self, usize> {
        fill(front, 1, 0xC0)?;
        Ok(Receipt {
            sn: front[1],
            ch: front[2] >> 4,
            pr: front[2] & 0x0F,
        })
    }
}

impl Headed for Interrupt {
    const HEADER: usize = 3;
}

impl Interrupt {
    #[inline]
    fn fits(&self) -> bool {
        self.sn <= 63 && self.ch <= 15
    }

    #[inline]
    fn header(&self, lv: u8) -> [u8; Self::HEADER] {
        let second = u8::from(self.s) << 7 | u8::from(self.f) << 6 | self.sn;
        [INTERRUPT, second, self.ch << 4 | lv]
    }

    #[inline]
    pub(crate) fn read(front: &Front) -> Self {
        Interrupt {
            s: bit(front[1], 0x80),
            f: bit(front[1], 0x40),
            sn: front[1] & 0x3F,
            ch: front[2] >> 4,
        }
    }
}

impl Headed for Confirmation {
    const HEADER: usize = 3;
}

impl Confirmation {
    #[inline]
    fn fits(&self) -> bool {
        self.sn <= 63 && self.ch <= 15
    }

    #[inline]
    fn header(&self, first: u8) -> [u8; Self::HEADER] {
        [first, self.sn, self.ch << 4]
    }

    #[inline]
    pub(crate) fn read(front: &Front) -> Result<Self, usize> {
        fill(front, 1, 0xC0)?;
        fill(front, 2, 0x0F)?;
        Ok(Confirmation {
            sn: front[1],
            ch: front[2] >> 4,
        })
    }
}

impl Headed for Reset {
    const HEADER: usize = 5;
}

impl Reset {
    #[inline]
    fn fits(&self) -> bool {
        self.sn <= 63 && self.ch <= 15
    }

    #[inline]
    fn header(&self) -> [u8; Self::HEADER] {
        [RESET, self.sn, self.ch << 4, self.rc, self.dc]
    }

    #[inline]
    pub(crate) fn read(front: &Front) -> Result<Self, usize> {
        fill(front, 1, 0xC0)?;
        fill(front, 2, 0x0F)?;
        Ok(Reset {
            sn: front[1],
            ch: front[2] >> 4,
            rc: front[3],
            dc: front[4],
        })
    }
}

impl Headed for Route {
    const HEADER: usize = 2;
}
