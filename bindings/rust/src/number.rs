use crate::raw;

/// A link sequence number, SN: gives order on the link, counts modulo 64.
///
/// It is a type apart from [`PacketNumber`], so that the two cannot be compared; and there is no
/// less-than, since numbers that wrap have distances only. It may hold any byte: a call to
/// which one over 63 is given as an argument refuses it.
///
/// ```
/// use pepperknoll::LinkNumber;
///
/// assert_eq!(LinkNumber(62).distance_to(LinkNumber(1)), 3);
/// assert_eq!(LinkNumber(63).next(), LinkNumber(0));
/// ```
#[derive(Clone, Copy, Debug, PartialEq, Eq, Hash)]
pub struct LinkNumber(pub u8);

impl LinkNumber {
    /// How far the other number is ahead of this one, modulo 64. A number past its field counts
    /// as its remainder.
    #[inline]
    pub fn distance_to(self, to: LinkNumber) -> u8 {
        // SAFETY: the call takes numbers only, any of them.
        unsafe { raw::pk_link_distance(self.0, to.0) }
    }

    /// The number after, modulo 64.
    #[inline]
    pub fn next(self) -> LinkNumber {
        // SAFETY: the call takes numbers only, any of them.
        LinkNumber(unsafe { raw::pk_link_next(self.0) })
    }
}

/// A packet sequence number, PS or PR: gives permission to send, counts modulo 16.
///
/// See [`LinkNumber`] for why it is a type of its own. A call to which one over 15 is given as
/// an argument refuses it.
///
/// ```
/// use pepperknoll::PacketNumber;
///
/// assert_eq!(PacketNumber(14).distance_to(PacketNumber(1)), 3);
/// assert_eq!(PacketNumber(15).next(), PacketNumber(0));
/// ```
#[derive(Clone, Copy, Debug, PartialEq, Eq, Hash)]
pub struct PacketNumber(pub u8);

impl PacketNumber {
    /// How far the other number is ahead of this one, modulo 16. A number past its field counts
    /// as its remainder.
    #[inline]
    pub fn distance_to(self, to: PacketNumber) -> u8 {
        // SAFETY: the call takes numbers only, any of them.
        unsafe { raw::pk_packet_distance(self.0, to.0) }
    }

    /// The number after, modulo 16.
    #[inline]
    pub fn next(self) -> PacketNumber {
        // SAFETY: the call takes numbers only, any of them.
        PacketNumber(unsafe { raw::pk_packet_next(self.0) })
    }
}
