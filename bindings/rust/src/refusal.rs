use std::error::Error;
use std::fmt;

/// Why a call was not done. A refused call has changed nothing.
///
/// ```
/// use pepperknoll::{PacketNumber, Refusal, Sender};
///
/// let refusal = Sender::fresh().acknowledge(PacketNumber(1)).unwrap_err();
/// assert_eq!(refusal, Refusal::NeverSent);
/// assert_eq!(refusal.number(), 16);
/// assert_eq!(refusal.to_string(), "PR acknowledges what was never sent");
/// ```
#[derive(Clone, Copy, Debug, PartialEq, Eq, Hash)]
#[repr(u8)]
pub enum Refusal {
    /// 1: an argument exceeds its field.
    OutOfRange = 1,
    /// 2: a frame is empty or no whole number of segments, the lengths do not sum to the data,
    /// there are no frames, or the last frame has M = 1.
    Malformed = 2,
    /// 3: a fixed field, fill, LV or padding byte is wrong, or M = 0 before the last frame.
    FormatError = 3,
    /// 4: a message is over 4,096 bytes.
    MessageTooLong = 4,
    /// 5: lent output is shorter than needed.
    OutputTooShort = 5,
    /// 6: a route list is over 255 bytes, or its last entry is cut.
    RouteListMalformed = 6,
    /// 7: no clock runs for that number.
    NoClock = 7,
    /// 8: the ground address has no interrogator.
    NoInterrogator = 8,
    /// 9: the send window is closed, or held off by RNR.
    WindowClosed = 9,
    /// 10: the received PS is outside the window.
    OutsideWindow = 10,
    /// 11: the received PS is out of sequence.
    OutOfSequence = 11,
    /// 12: the received PS is the first one and not 0.
    FirstNotZero = 12,
    /// 13: the packet is over the form's largest size.
    PacketTooLong = 13,
    /// 14: the state is not in good order.
    NotInOrder = 14,
    /// 15: every interrogator of that address has failed.
    AllFailed = 15,
    /// 16: PR acknowledges what was never sent.
    NeverSent = 16,
    /// 17: SN, PS or CH breaks the run while joining.
    RunBroken = 17,
    /// 23: a frame is to be written, or a message cut, in the short uplink form, which is read and
    /// joined but no longer written.
    ShortForm = 23,
}

/// The two codes with which a call is cleared; [`Refusal::clearing`] gives them. They go into the
/// fields CC and DC of a [`Packet::ClearRequest`](crate::Packet::ClearRequest).
#[derive(Clone, Copy, Debug, PartialEq, Eq, Hash)]
pub struct Clearing {
    /// Clearing cause, CC.
    pub cause: u8,
    /// Diagnostic code, DC.
    pub diagnostic: u8,
}

impl Refusal {
    /// All refusals, by rising number.
    pub const ALL: [Refusal; 18] = [
        Refusal::OutOfRange,
        Refusal::Malformed,
        Refusal::FormatError,
        Refusal::MessageTooLong,
        Refusal::OutputTooShort,
        Refusal::RouteListMalformed,
        Refusal::NoClock,
        Refusal::NoInterrogator,
        Refusal::WindowClosed,
        Refusal::OutsideWindow,
        Refusal::OutOfSequence,
        Refusal::FirstNotZero,
        Refusal::PacketTooLong,
        Refusal::NotInOrder,
        Refusal::AllFailed,
        Refusal::NeverSent,
        Refusal::RunBroken,
        Refusal::ShortForm,
    ];

    /// The refusal's number, 1 to 17 or 23.
    #[inline]
    pub const fn number(self) -> u8 {
        self as u8
    }

    /// The refusal with this number.
    ///
    /// ```
    /// use pepperknoll::Refusal;
    ///
    /// assert_eq!(Refusal::from_number(7), Some(Refusal::NoClock));
    /// assert_eq!(Refusal::from_number(0), None);
    /// ```
    #[inline]
    pub const fn from_number(number: u8) -> Option<Refusal> {
        match number {
            1..=17 => Some(Refusal::ALL[number as usize - 1]),
            23 => Some(Refusal::ShortForm),
            _ => None,
        }
    }

    /// The codes with which a call is cleared that was refused so: CC 141 and DC 162 for
    /// [`Refusal::NoInterrogator`], none for all others. They are constants of the rules; the
    /// library's answer to a refused call holds the refusal's number and nothing else.
    ///
    /// They are meant for a call, that is for a CALL REQUEST; for other packets the rules name no
    /// codes.
    ///
    /// ```
    /// use pepperknoll::{choose, Clearing, Refusal};
    ///
    /// let refusal = choose(0, None, 0).unwrap_err();
    /// assert_eq!(refusal, Refusal::NoInterrogator);
    /// let codes = Clearing { cause: 141, diagnostic: 162 };
    /// assert_eq!(refusal.clearing(), Some(codes));
    /// assert_eq!(Refusal::AllFailed.clearing(), None);
    /// ```
    #[inline]
    pub const fn clearing(self) -> Option<Clearing> {
        match self {
            Refusal::NoInterrogator => Some(Clearing {
                cause: 141,
                diagnostic: 162,
            }),
            _ => None,
        }
    }
}

impl fmt::Display for Refusal {
    fn fmt(&self, f: &mut fmt::Formatter<'_>) -> fmt::Result {
        f.write_str(match self {
            Refusal::OutOfRange => "an argument exceeds its field",
            Refusal::Malformed => "the frames or their lengths are malformed",
            Refusal::FormatError => "a fixed field, fill, LV, padding byte or M is wrong",
            Refusal::MessageTooLong => "the message is over 4,096 bytes",
            Refusal::OutputTooShort => "the lent output is shorter than needed",
            Refusal::RouteListMalformed => "the route list is over 255 bytes or cut",
            Refusal::NoClock => "no clock runs for that number",
            Refusal::NoInterrogator => "the ground address has no interrogator",
            Refusal::WindowClosed => "the send window is closed or held off",
            Refusal::OutsideWindow => "the received PS is outside the window",
            Refusal::OutOfSequence => "the received PS is out of sequence",
            Refusal::FirstNotZero => "the first received PS is not 0",
            Refusal::PacketTooLong => "the packet is over the form's largest size",
            Refusal::NotInOrder => "the state is not in good order",
            Refusal::AllFailed => "every interrogator of that address has failed",
            Refusal::NeverSent => "PR acknowledges what was never sent",
            Refusal::RunBroken => "SN, PS or CH breaks the run",
            Refusal::ShortForm => "the short uplink form is no longer written",
        })
    }
}

impl Error for Refusal {}

/// Why a frame was not read or frames were not joined, and the byte position of the first fault.
///
/// The position is one in the frame that was to be read, or in all the data that was to be joined.
/// It means something beside these refusals only, and is 0 beside any other:
///
/// - 3: the first byte, in frame order, that holds a wrong fixed field, fill, LV, length of a ROUTE
///   or padding, or lies past the segments of a packet without LV.
/// - 2: the length of the frame that is empty or no whole number of segments; in joining, where
///   that frame ends.
/// - 13: the form's largest size; in joining, counted from where the frame starts.
/// - In joining, for 17, for a wrong M (3 or 2) and for a frame that is not DATA (3): the frame's
///   first byte.
/// - In joining, for lengths that do not sum to the data or no frames (2), for 4 and for 5: the
///   length of all the data.
///
/// Where the position does not matter, `?` turns it into the [`Refusal`] alone.
///
/// ```
/// use pepperknoll::{read_frame, Form, Refusal, Refused};
///
/// let lv_below_the_header = [0x80, 0, 2, 0, 0, 0, 0, 0, 0, 0];
/// let refused = read_frame(Form::LongUplink, &lv_below_the_header).unwrap_err();
/// assert_eq!(refused, Refused { why: Refusal::FormatError, at: 2 });
/// assert_eq!(
///     refused.to_string(),
///     "a fixed field, fill, LV, padding byte or M is wrong (refusal 3) at byte 2"
/// );
/// assert_eq!(Refusal::from(refused), Refusal::FormatError);
/// ```
#[derive(Clone, Copy, Debug, PartialEq, Eq, Hash)]
pub struct Refused {
    /// Why the call was not done.
    pub why: Refusal,
    /// The position of the first fault, counted from 0.
    pub at: usize,
}

impl Refused {
    /// Whether the rules name a position beside this refusal.
    const fn has_position(self) -> bool {
        matches!(
            self.why,
            Refusal::Malformed
                | Refusal::FormatError
                | Refusal::MessageTooLong
                | Refusal::OutputTooShort
                | Refusal::PacketTooLong
                | Refusal::RunBroken
        )
    }
}

impl fmt::Display for Refused {
    fn fmt(&self, f: &mut fmt::Formatter<'_>) -> fmt::Result {
        write!(f, "{} (refusal {})", self.why, self.why.number())?;
        if self.has_position() {
            write!(f, " at byte {}", self.at)?;
        }
        Ok(())
    }
}

impl Error for Refused {}

impl From<Refused> for Refusal {
    #[inline]
    fn from(refused: Refused) -> Self {
        refused.why
    }
}

#[cfg(test)]
mod tests {
    use super::*;
    use std::collections::HashSet;

    #[test]
    fn numbers_are_those_of_the_table_and_come_back() {
        let numbers: Vec<u8> = Refusal::ALL
            .iter()
            .map(|refusal| refusal.number())
            .collect();
        assert_eq!(numbers, (1..=17).chain([23]).collect::<Vec<u8>>());
        for number in 0..=255 {
            let back = Refusal::from_number(number).map(Refusal::number);
            assert_eq!(back, numbers.contains(&number).then_some(number));
        }
    }

    #[test]
    fn one_refusal_has_clearing_codes() {
        for refusal in Refusal::ALL {
            let codes = refusal
                .clearing()
                .map(|codes| (codes.cause, codes.diagnostic));
            assert_eq!(codes, (refusal.number() == 8).then_some((141, 162)));
        }
    }

    #[test]
    fn sentences_differ() {
        let sentences: HashSet<String> = Refusal::ALL.iter().map(Refusal::to_string).collect();
        assert_eq!(sentences.len(), Refusal::ALL.len());
    }

    #[test]
    fn six_refusals_have_a_position() {
        let with_position = |why: Refusal| {
            let text = Refused { why, at: 4399 }.to_string();
            assert!(text.starts_with(&format!("{why} (refusal {})", why.number())));
            text.ends_with(" at byte 4399")
        };
        let numbers = Refusal::ALL
            .into_iter()
            .filter(|&why| with_position(why))
            .map(Refusal::number);
        assert_eq!(numbers.collect::<Vec<_>>(), [2, 3, 4, 5, 13, 17]);
    }
}
