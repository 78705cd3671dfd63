/// Why a call was not done; the numbers are those of the rules.
#[derive(Clone, Copy, Debug, PartialEq, Eq)]
#[repr(u8)]
pub enum Refusal {
    OutOfRange = 1,
    Malformed = 2,
    FormatError = 3,
    MessageTooLong = 4,
    OutputTooShort = 5,
    RouteListMalformed = 6,
    NoClock = 7,
    NoInterrogator = 8,
    WindowClosed = 9,
    OutsideWindow = 10,
    OutOfSequence = 11,
    FirstNotZero = 12,
    PacketTooLong = 13,
    NotInOrder = 14,
    AllFailed = 15,
    NeverSent = 16,
    RunBroken = 17,
    /// The short uplink form is read and joined, but no longer written or cut.
    ShortForm = 23,
}

impl Refusal {
    #[inline]
    pub fn number(self) -> u8 {
        self as u8
    }

    /// Clearing cause CC and diagnostic code DC with which a call is cleared that was refused so;
    /// the rules name them for 8 alone.
    pub fn clearing(self) -> Option<(u8, u8)> {
        (self == Refusal::NoInterrogator).then_some((141, 162))
    }

    /// The refusal, with the position of the byte that it is given for.
    #[inline]
    pub fn at(self, at: usize) -> Fault {
        Fault { refusal: self, at }
    }
}

/// Why a frame was not read or a run of frames not joined, and where the first thing wrong is.
#[derive(Clone, Copy, Debug, PartialEq, Eq)]
pub struct Fault {
    pub refusal: Refusal,
    /// A position in the frame; in joining, in all of its data.
    pub at: usize,
}

impl Fault {
    /// The same fault, told of a frame that starts here among others.
    #[inline]
    pub fn in_frame_at(self, start: usize) -> Self {
        self.refusal.at(start + self.at)
    }
}

/// A refusal that no byte is to blame for has position 0: that of the form.
impl From<Refusal> for Fault {
    #[inline]
    fn from(refusal: Refusal) -> Self {
        refusal.at(0)
    }
}

impl From<Fault> for Refusal {
    #[inline]
    fn from(fault: Fault) -> Self {
        fault.refusal
    }
}
