use crate::answer::unknown;
use crate::{LinkNumber, PacketNumber};

/// A packet's fields. User data is given beside it, as a slice; DATA, CLEAR REQUEST, CALL REQUEST,
/// CALL ACCEPT and INTERRUPT have some, which may be empty.
///
/// The form says the direction of a CALL packet. Uplink frames have no place for CH of a CALL
/// REQUEST and for TC of a CALL ACCEPT, downlink frames none for TC of a CALL REQUEST: such a field
/// is 0 when it is read, and anything else there is refused with 1 when it is written.
#[derive(Clone, Copy, Debug, PartialEq, Eq, Hash)]
pub enum Packet {
    /// DATA.
    Data {
        /// More frames of this message follow.
        m: bool,
        /// Link sequence number.
        sn: LinkNumber,
        /// Packet send sequence number.
        ps: PacketNumber,
        /// Packet receive sequence number.
        pr: PacketNumber,
        /// Channel, at most 15.
        ch: u8,
    },
    /// CLEAR REQUEST.
    ClearRequest {
        /// Temporary channel, at most 3.
        tc: u8,
        /// Link sequence number.
        sn: LinkNumber,
        /// Channel, at most 15.
        ch: u8,
        /// Mobile address, at most 15.
        am: u8,
        /// Ground address.
        ag: u8,
        /// Clearing cause.
        cc: u8,
        /// Diagnostic code.
        dc: u8,
        /// The S bit.
        s: bool,
        /// The F bit.
        f: bool,
    },
    /// CLEAR CONFIRMATION; it has no user data.
    ClearConfirmation {
        /// Temporary channel, at most 3.
        tc: u8,
        /// Link sequence number.
        sn: LinkNumber,
        /// Channel, at most 15.
        ch: u8,
        /// Mobile address, at most 15.
        am: u8,
        /// Ground address.
        ag: u8,
    },
    /// CALL REQUEST, by ground on the uplink and by air on the downlink.
    CallRequest {
        /// The P bit.
        p: bool,
        /// Link sequence number.
        sn: LinkNumber,
        /// Temporary channel, at most 3; 0 on the downlink.
        tc: u8,
        /// Channel, at most 15; 0 on the uplink.
        ch: u8,
        /// Mobile address, at most 15.
        am: u8,
        /// Ground address.
        ag: u8,
        /// The S bit.
        s: bool,
        /// Fast select, at most 3.
        fs: u8,
        /// The F bit.
        f: bool,
    },
    /// CALL ACCEPT, by ground on the uplink and by air on the downlink.
    CallAccept {
        /// Temporary channel, at most 3; 0 on the uplink.
        tc: u8,
        /// Link sequence number.
        sn: LinkNumber,
        /// Channel, at most 15.
        ch: u8,
        /// Mobile address, at most 15.
        am: u8,
        /// Ground address.
        ag: u8,
        /// The S bit.
        s: bool,
        /// The F bit.
        f: bool,
    },
    /// RR; it has no user data. Its PR goes to [`Sender::ready`](crate::Sender::ready).
    ReceiveReady {
        /// Link sequence number.
        sn: LinkNumber,
        /// Channel, at most 15.
        ch: u8,
        /// Packet receive sequence number.
        pr: PacketNumber,
    },
    /// RNR; it has no user data. Its PR goes to [`Sender::not_ready`](crate::Sender::not_ready).
    ReceiveNotReady {
        /// Link sequence number.
        sn: LinkNumber,
        /// Channel, at most 15.
        ch: u8,
        /// Packet receive sequence number.
        pr: PacketNumber,
    },
    /// REJECT; it has no user data. Its PR goes to [`Sender::reject`](crate::Sender::reject).
    Reject {
        /// Link sequence number.
        sn: LinkNumber,
        /// Channel, at most 15.
        ch: u8,
        /// Packet receive sequence number.
        pr: PacketNumber,
    },
    /// INTERRUPT.
    Interrupt {
        /// The S bit.
        s: bool,
        /// The F bit.
        f: bool,
        /// Link sequence number.
        sn: LinkNumber,
        /// Channel, at most 15.
        ch: u8,
    },
    /// INTERRUPT CONFIRMATION; it has no user data.
    InterruptConfirmation {
        /// Link sequence number.
        sn: LinkNumber,
        /// Channel, at most 15.
        ch: u8,
    },
    /// RESET; it has no user data.
    Reset {
        /// Link sequence number.
        sn: LinkNumber,
        /// Channel, at most 15.
        ch: u8,
        /// Resetting cause.
        rc: u8,
        /// Diagnostic code.
        dc: u8,
    },
    /// RESET CONFIRMATION; it has no user data.
    ResetConfirmation {
        /// Link sequence number.
        sn: LinkNumber,
        /// Channel, at most 15.
        ch: u8,
    },
}

/// The bytes in which a packet's fields are lent to the library: its kind, then a byte for each
/// field. Those that the kind has no use for are 0; the library refuses any other value there.
pub(crate) const PACKET_BYTES: usize = 10;

macro_rules! kinds {
    ($($number:literal $kind:ident [$($field:ident)*])*) => {
        impl Packet {
            #[inline]
            pub(crate) fn to_bytes(self) -> [u8; PACKET_BYTES] {
                match self {
                    $(Packet::$kind { $($field),* } => bytes(&[$number, $($field.byte()),*]),)*
                }
            }

            #[inline]
            pub(crate) fn from_bytes([kind, fields @ ..]: [u8; PACKET_BYTES]) -> Self {
                let mut fields = fields.into_iter();
                match kind {
                    $($number => Packet::$kind { $($field: next(&mut fields)),* },)*
                    _ => unknown(kind.into()),
                }
            }
        }
    };
}

// The kinds by their numbers, each with its fields in the order of the bytes.
kinds! {
    0 Data [m sn ps pr ch]
    1 ClearRequest [tc sn ch am ag cc dc s f]
    2 ClearConfirmation [tc sn ch am ag]
    3 CallRequest [p sn tc ch am ag s fs f]
    4 CallAccept [tc sn ch am ag s f]
    5 ReceiveReady [sn ch pr]
    6 ReceiveNotReady [sn ch pr]
    7 Reject [sn ch pr]
    8 Interrupt [s f sn ch]
    9 InterruptConfirmation [sn ch]
    10 Reset [sn ch rc dc]
    11 ResetConfirmation [sn ch]
}

/// A kind and its fields, with zeros after them.
#[inline]
fn bytes(used: &[u8]) -> [u8; PACKET_BYTES] {
    let mut bytes = [0; PACKET_BYTES];
    bytes[..used.len()].copy_from_slice(used);
    bytes
}

/// The field in the next byte; no kind has more fields than there are bytes.
#[inline]
fn next<F: Field>(bytes: &mut impl Iterator<Item = u8>) -> F {
    F::of(bytes.next().unwrap_or_default())
}

/// A field as the byte that it is lent in.
trait Field {
    fn byte(self) -> u8;
    fn of(byte: u8) -> Self;
}

impl Field for u8 {
    #[inline]
    fn byte(self) -> u8 {
        self
    }

    #[inline]
    fn of(byte: u8) -> Self {
        byte
    }
}

impl Field for bool {
    #[inline]
    fn byte(self) -> u8 {
        self.into()
    }

    #[inline]
    fn of(byte: u8) -> Self {
        byte != 0
    }
}

impl Field for LinkNumber {
    #[inline]
    fn byte(self) -> u8 {
        self.0
    }

    #[inline]
    fn of(byte: u8) -> Self {
        LinkNumber(byte)
    }
}

impl Field for PacketNumber {
    #[inline]
    fn byte(self) -> u8 {
        self.0
    }

    #[inline]
    fn of(byte: u8) -> Self {
        PacketNumber(byte)
    }
}

#[cfg(test)]
mod tests {
    use super::*;

    /// How many fields each kind has.
    const FIELDS: [usize; 12] = [5, 9, 5, 9, 7, 3, 3, 3, 4, 2, 4, 2];

    #[test]
    fn every_kind_s_bytes_and_back() {
        for (kind, fields) in (0..).zip(FIELDS) {
            for at in 1..=fields {
                let mut bytes = [0; PACKET_BYTES];
                (bytes[0], bytes[at]) = (kind, 1);
                let packet = Packet::from_bytes(bytes);
                assert_eq!(packet.to_bytes(), bytes, "{packet:?}");
            }
        }
    }

    /// A name beside its byte, so that no two fields are exchanged both ways.
    #[test]
    fn fields_by_their_names() {
        let request = Packet::CallRequest {
            p: true,
            sn: LinkNumber(2),
            tc: 3,
            ch: 4,
            am: 5,
            ag: 6,
            s: false,
            fs: 8,
            f: true,
        };
        assert_eq!(request.to_bytes(), [3, 1, 2, 3, 4, 5, 6, 0, 8, 1]);
        let reset = Packet::Reset {
            sn: LinkNumber(1),
            ch: 2,
            rc: 3,
            dc: 4,
        };
        assert_eq!(reset.to_bytes(), [10, 1, 2, 3, 4, 0, 0, 0, 0, 0]);
        let interrupt = Packet::Interrupt {
            s: true,
            f: false,
            sn: LinkNumber(3),
            ch: 4,
        };
        assert_eq!(interrupt.to_bytes(), [8, 1, 0, 3, 4, 0, 0, 0, 0, 0]);
        let reject = Packet::Reject {
            sn: LinkNumber(1),
            ch: 2,
            pr: PacketNumber(3),
        };
        assert_eq!(reject.to_bytes(), [7, 1, 2, 3, 0, 0, 0, 0, 0, 0]);
    }
}
