//! Packets without their user data: what each kind carries, and the ten bytes in which the
//! interface lends it.

use crate::Refusal;

/// DATA.
#[derive(Clone, Copy, Debug, PartialEq, Eq)]
pub struct Data {
    pub m: bool,
    pub sn: u8,
    pub ps: u8,
    pub pr: u8,
    pub ch: u8,
}

/// CLEAR REQUEST.
#[derive(Clone, Copy, Debug, PartialEq, Eq)]
pub struct ClearRequest {
    pub tc: u8,
    pub sn: u8,
    pub ch: u8,
    pub am: u8,
    pub ag: u8,
    pub cc: u8,
    pub dc: u8,
    pub s: bool,
    pub f: bool,
}

/// CLEAR CONFIRMATION.
#[derive(Clone, Copy, Debug, PartialEq, Eq)]
pub struct ClearConfirmation {
    pub tc: u8,
    pub sn: u8,
    pub ch: u8,
    pub am: u8,
    pub ag: u8,
}

/// CALL REQUEST. There is no place for CH on the uplink and none for TC on the downlink.
#[derive(Clone, Copy, Debug, PartialEq, Eq)]
pub struct CallRequest {
    pub p: bool,
    pub sn: u8,
    pub tc: u8,
    pub ch: u8,
    pub am: u8,
    pub ag: u8,
    pub s: bool,
    pub fs: u8,
    pub f: bool,
}

/// CALL ACCEPT. There is no place for TC on the uplink.
#[derive(Clone, Copy, Debug, PartialEq, Eq)]
pub struct CallAccept {
    pub tc: u8,
    pub sn: u8,
    pub ch: u8,
    pub am: u8,
    pub ag: u8,
    pub s: bool,
    pub f: bool,
}

/// What RR, RNR and REJECT carry.
#[derive(Clone, Copy, Debug, PartialEq, Eq)]
pub struct Receipt {
    pub sn: u8,
    pub ch: u8,
    pub pr: u8,
}

/// INTERRUPT.
#[derive(Clone, Copy, Debug, PartialEq, Eq)]
pub struct Interrupt {
    pub s: bool,
    pub f: bool,
    pub sn: u8,
    pub ch: u8,
}

/// What INTERRUPT CONFIRMATION and RESET CONFIRMATION carry.
#[derive(Clone, Copy, Debug, PartialEq, Eq)]
pub struct Confirmation {
    pub sn: u8,
    pub ch: u8,
}

/// RESET.
#[derive(Clone, Copy, Debug, PartialEq, Eq)]
pub struct Reset {
    pub sn: u8,
    pub ch: u8,
    pub rc: u8,
    pub dc: u8,
}

/// The front of a ROUTE, whose table and optional data follow it; IN is called `init`.
#[derive(Clone, Copy, Debug, PartialEq, Eq)]
pub struct Route {
    pub of: bool,
    pub init: bool,
    pub rtl: u8,
}

/// A packet without its user data, which stands beside it.
#[derive(Clone, Copy, Debug, PartialEq, Eq)]
pub enum Packet {
    Data(Data),
    ClearRequest(ClearRequest),
    ClearConfirmation(ClearConfirmation),
    CallRequest(CallRequest),
    CallAccept(CallAccept),
    ReceiveReady(Receipt),
    ReceiveNotReady(Receipt),
    Reject(Receipt),
    Interrupt(Interrupt),
    InterruptConfirmation(Confirmation),
    Reset(Reset),
    ResetConfirmation(Confirmation),
    /// Read as the others are; written by a call of its own.
    Route(Route),
}

/// The bytes of a packet as the interface lays it out.
pub const PACKET_BYTES: usize = 10;

/// Those after the kind.
type Fields = [u8; PACKET_BYTES - 1];

impl Packet {
    /// A packet to write, as the interface lays it out. Refused are: another number of bytes, a
    /// kind that is none, ROUTE, a flag over 1, and a byte other than 0 where the kind has no
    /// field.
    pub fn from_bytes(bytes: &[u8]) -> Result<Self, Refusal> {
        let bytes: [u8; PACKET_BYTES] = bytes.try_into().map_err(|_| Refusal::OutOfRange)?;
        let [kind, fields @ ..] = bytes;
        let packet = match kind {
            0 => Data::from_fields(fields).map(Packet::Data),
            1 => ClearRequest::from_fields(fields).map(Packet::ClearRequest),
            2 => ClearConfirmation::from_fields(fields).map(Packet::ClearConfirmation),
            3 => CallRequest::from_fields(fields).map(Packet::CallRequest),
            4 => CallAccept::from_fields(fields).map(Packet::CallAccept),
            5 => Receipt::from_fields(fields).map(Packet::ReceiveReady),
            6 => Receipt::from_fields(fields).map(Packet::ReceiveNotReady),
            7 => Receipt::from_fields(fields).map(Packet::Reject),
            8 => Interrupt::from_fields(fields).map(Packet::Interrupt),
            9 => Confirmation::from_fields(fields).map(Packet::InterruptConfirmation),
            10 => Reset::from_fields(fields).map(Packet::Reset),
            11 => Confirmation::from_fields(fields).map(Packet::ResetConfirmation),
            _ => None,
        };
        packet.ok_or(Refusal::OutOfRange)
    }

    /// The bytes of a packet that was read, ROUTE included.
    pub fn to_bytes(self) -> [u8; PACKET_BYTES] {
        let (kind, fields) = match self {
            Packet::Data(packet) => (0, packet.fields()),
            Packet::ClearRequest(packet) => (1, packet.fields()),
            Packet::ClearConfirmation(packet) => (2, packet.fields()),
            Packet::CallRequest(packet) => (3, packet.fields()),
            Packet::CallAccept(packet) => (4, packet.fields()),
            Packet::ReceiveReady(packet) => (5, packet.fields()),
            Packet::ReceiveNotReady(packet) => (6, packet.fields()),
            Packet::Reject(packet) => (7, packet.fields()),
            Packet::Interrupt(packet) => (8, packet.fields()),
            Packet::InterruptConfirmation(packet) => (9, packet.fields()),
            Packet::Reset(packet) => (10, packet.fields()),
            Packet::ResetConfirmation(packet) => (11, packet.fields()),
            Packet::Route(packet) => (12, packet.fields()),
        };
        let mut bytes = [kind; PACKET_BYTES];
        bytes[1..].copy_from_slice(&fields);
        bytes
    }
}

fn flag(byte: u8) -> Option<bool> {
    match byte {
        0 => Some(false),
        1 => Some(true),
        _ => None,
    }
}

impl Data {
    fn from_fields(fields: Fields) -> Option<Self> {
        let [m, sn, ps, pr, ch, 0, 0, 0, 0] = fields else {
            return None;
        };
        let m = flag(m)?;
        Some(Data { m, sn, ps, pr, ch })
    }

    fn fields(self) -> Fields {
        let Data { m, sn, ps, pr, ch } = self;
        [m.into(), sn, ps, pr, ch, 0, 0, 0, 0]
    }
}

impl ClearRequest {
    fn from_fields([tc, sn, ch, am, ag, cc, dc, s, f]: Fields) -> Option<Self> {
        Some(ClearRequest {
            tc,
            sn,
            ch,
            am,
            ag,
            cc,
            dc,
            s: flag(s)?,
            f: flag(f)?,
        })
    }

    fn fields(self) -> Fields {
        let [s, f] = [self.s.into(), self.f.into()];
        let [tc, sn, ch, am, ag] = [self.tc, self.sn, self.ch, self.am, self.ag];
        [tc, sn, ch, am, ag, self.cc, self.dc, s, f]
    }
}

impl ClearConfirmation {
    fn from_fields(fields: Fields) -> Option<Self> {
        let [tc, sn, ch, am, ag, 0, 0, 0, 0] = fields else {
            return None;
        };
        Some(ClearConfirmation { tc, sn, ch, am, ag })
    }

    fn fields(self) -> Fields {
        let ClearConfirmation { tc, sn, ch, am, ag } = self;
        [tc, sn, ch, am, ag, 0, 0, 0, 0]
    }
}

impl CallRequest {
    fn from_fields([p, sn, tc, ch, am, ag, s, fs, f]: Fields) -> Option<Self> {
        Some(CallRequest {
            p: flag(p)?,
            sn,
            tc,
            ch,
            am,
            ag,
            s: flag(s)?,
            fs,
            f: flag(f)?,
        })
    }

    fn fields(self) -> Fields {
        let [p, s, f] = [self.p.into(), self.s.into(), self.f.into()];
        let [sn, tc, ch, am, ag] = [self.sn, self.tc, self.ch, self.am, self.ag];
        [p, sn, tc, ch, am, ag, s, self.fs, f]
    }
}

impl CallAccept {
    fn from_fields(fields: Fields) -> Option<Self> {
        let [tc, sn, ch, am, ag, s, f, 0, 0] = fields else {
            return None;
        };
        Some(CallAccept {
            tc,
            sn,
            ch,
            am,
            ag,
            s: flag(s)?,
            f: flag(f)?,
        })
    }

    fn fields(self) -> Fields {
        let [s, f] = [self.s.into(), self.f.into()];
        [self.tc, self.sn, self.ch, self.am, self.ag, s, f, 0, 0]
    }
}

impl Receipt {
    fn from_fields(fields: Fields) -> Option<Self> {
        let [sn, ch, pr, 0, 0, 0, 0, 0, 0] = fields else {
            return None;
        };
        Some(Receipt { sn, ch, pr })
    }

    fn fields(self) -> Fields {
        [self.sn, self.ch, self.pr, 0, 0, 0, 0, 0, 0]
    }
}

impl Interrupt {
    fn from_fields(fields: Fields) -> Option<Self> {
        let [s, f, sn, ch, 0, 0, 0, 0, 0] = fields else {
            return None;
        };
        let (s, f) = (flag(s)?, flag(f)?);
        Some(Interrupt { s, f, sn, ch })
    }

    fn fields(self) -> Fields {
        let [s, f] = [self.s.into(), self.f.into()];
        [s, f, self.sn, self.ch, 0, 0, 0, 0, 0]
    }
}

impl Confirmation {
    fn from_fields(fields: Fields) -> Option<Self> {
        let [sn, ch, 0, 0, 0, 0, 0, 0, 0] = fields else {
            return None;
        };
        Some(Confirmation { sn, ch })
    }

    fn fields(self) -> Fields {
        [self.sn, self.ch, 0, 0, 0, 0, 0, 0, 0]
    }
}

impl Reset {
    fn from_fields(fields: Fields) -> Option<Self> {
        let [sn, ch, rc, dc, 0, 0, 0, 0, 0] = fields else {
            return None;
        };
        Some(Reset { sn, ch, rc, dc })
    }

    fn fields(self) -> Fields {
        [self.sn, self.ch, self.rc, self.dc, 0, 0, 0, 0, 0]
    }
}

impl Route {
    fn fields(self) -> Fields {
        [self.of.into(), self.init.into(), self.rtl, 0, 0, 0, 0, 0, 0]
    }
}

#[cfg(test)]
mod tests {
    use super::*;

    /// A packet of each kind that is written so, no two fields the same.
    const SOME: [[u8; PACKET_BYTES]; 12] = [
        [0, 1, 5, 3, 2, 4, 0, 0, 0, 0],
        [1, 3, 63, 15, 14, 255, 141, 162, 1, 0],
        [2, 3, 63, 15, 14, 255, 0, 0, 0, 0],
        [3, 1, 60, 2, 13, 12, 200, 1, 3, 0],
        [4, 2, 61, 12, 11, 201, 0, 1, 0, 0],
        [5, 62, 11, 10, 0, 0, 0, 0, 0, 0],
        [6, 62, 11, 10, 0, 0, 0, 0, 0, 0],
        [7, 62, 11, 10, 0, 0, 0, 0, 0, 0],
        [8, 1, 0, 59, 9, 0, 0, 0, 0, 0],
        [9, 58, 8, 0, 0, 0, 0, 0, 0, 0],
        [10, 57, 7, 202, 203, 0, 0, 0, 0, 0],
        [11, 56, 6, 0, 0, 0, 0, 0, 0, 0],
    ];
    /// How many fields each of them has.
    const FIELDS: [usize; 12] = [5, 9, 5, 9, 7, 3, 3, 3, 4, 2, 4, 2];

    #[test]
    fn a_packet_s_bytes_and_back() {
        for bytes in SOME {
            assert_eq!(Packet::from_bytes(&bytes).unwrap().to_bytes(), bytes);
        }
        let route = Route {
            of: true,
            init: false,
            rtl: 7,
        };
        let bytes = [12, 1, 0, 7, 0, 0, 0, 0, 0, 0];
        assert_eq!(Packet::Route(route).to_bytes(), bytes);
    }

    /// ROUTE is none of those that are written so.
    #[test]
    fn no_other_kinds() {
        for kind in 12..=255 {
            let bytes = [kind, 0, 0, 0, 0, 0, 0, 0, 0, 0];
            assert_eq!(Packet::from_bytes(&bytes), Err(Refusal::OutOfRange));
        }
    }

    #[test]
    fn a_packet_has_ten_bytes() {
        for length in (0..=20).filter(|&length| length != PACKET_BYTES) {
            let bytes = vec![0; length];
            assert_eq!(Packet::from_bytes(&bytes), Err(Refusal::OutOfRange));
        }
    }

    #[test]
    fn flags_are_0_or_1() {
        let flags = [(0, 1), (1, 8), (1, 9), (3, 1), (3, 7), (3, 9)];
        for (kind, at) in flags.into_iter().chain([(4, 6), (4, 7), (8, 1), (8, 2)]) {
            for value in 0..=255 {
                let mut bytes = SOME[kind];
                bytes[at] = value;
                let good = Packet::from_bytes(&bytes).is_ok();
                assert_eq!(good, value <= 1, "{bytes:?}");
            }
        }
    }

    #[test]
    fn bytes_without_a_field_are_0() {
        for (some, fields) in SOME.into_iter().zip(FIELDS) {
            for at in 1 + fields..PACKET_BYTES {
                for bit in 0..8 {
                    let mut bytes = some;
                    bytes[at] = 1 << bit;
                    assert_eq!(Packet::from_bytes(&bytes), Err(Refusal::OutOfRange));
                }
            }
        }
    }
}
