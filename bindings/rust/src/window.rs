use crate::answer::values;
use crate::{raw, PacketNumber, Refusal};

/// The sending end of the flow window: its lower edge, the next PS, and a mark that stands while an
/// RNR holds the end off.
///
/// ```
/// use pepperknoll::{PacketNumber, Refusal, Sender};
///
/// let mut end = Sender::fresh();
/// for ps in 0..15 {
///     assert_eq!(end.send(), Ok(PacketNumber(ps)));
/// }
/// assert_eq!(end.send(), Err(Refusal::WindowClosed));
/// end.acknowledge(PacketNumber(4))?;
/// assert_eq!(end.send(), Ok(PacketNumber(15)));
/// # Ok::<(), Refusal>(())
/// ```
#[derive(Clone, Copy, Debug, PartialEq, Eq, Hash)]
pub struct Sender([u8; Sender::BYTES]);

impl Sender {
    /// The bytes of a state: `[0]` lower edge, `[1]` next PS, `[2]` 1 while an RNR holds the end
    /// off, else 0.
    pub const BYTES: usize = 3;

    /// A state that has sent nothing and is not held off.
    #[inline]
    pub fn fresh() -> Self {
        let mut bytes = [0; Self::BYTES];
        // SAFETY: the array is lent whole, with its own length.
        let answer = unsafe { raw::pk_sender_fresh(bytes.as_mut_ptr(), bytes.len()) };
        debug_assert_eq!(answer, 0);
        Sender(bytes)
    }

    /// A state from bytes that were stored. Any bytes are taken; what is no state in good order
    /// is refused by the calls.
    ///
    /// ```
    /// use pepperknoll::{Refusal, Sender};
    ///
    /// let mut stored = Sender::from_bytes([3, 16, 0]);
    /// assert!(!stored.in_order());
    /// assert_eq!(stored.send(), Err(Refusal::NotInOrder));
    /// assert_eq!(stored.as_bytes(), &[3, 16, 0]);
    /// ```
    #[inline]
    pub const fn from_bytes(bytes: [u8; Self::BYTES]) -> Self {
        Sender(bytes)
    }

    /// The bytes of this state, to be stored.
    #[inline]
    pub const fn as_bytes(&self) -> &[u8; Self::BYTES] {
        &self.0
    }

    /// Whether this is a state in good order.
    #[inline]
    pub fn in_order(&self) -> bool {
        // SAFETY: the state is lent whole, with its own length.
        unsafe { raw::pk_sender_in_order(self.0.as_ptr(), self.0.len()) == 0 }
    }

    /// Whether an RNR holds the end off.
    #[inline]
    pub const fn held_off(&self) -> bool {
        self.0[2] == 1
    }

    /// Asks for a PS to send the next packet with. Refused with 14, 9 (the window is closed, or the
    /// end is held off).
    #[inline]
    pub fn send(&mut self) -> Result<PacketNumber, Refusal> {
        // SAFETY: the state is lent whole, with its own length.
        let answer = unsafe { raw::pk_sender_send(self.0.as_mut_ptr(), self.0.len()) };
        values(answer.into()).map(|ps| PacketNumber(ps as u8))
    }

    /// Takes the PR of a DATA packet that came in. An end that is held off stays so. Refused with
    /// 14, 1, 16.
    #[inline]
    pub fn acknowledge(&mut self, pr: PacketNumber) -> Result<(), Refusal> {
        self.take(raw::pk_sender_acknowledge, pr)
    }

    /// Takes an RR that came in, by its PR: the end is no longer held off. Refused with 14, 1, 16,
    /// and then still held off if it was.
    #[inline]
    pub fn ready(&mut self, pr: PacketNumber) -> Result<(), Refusal> {
        self.take(raw::pk_sender_ready, pr)
    }

    /// Takes an RNR that came in, by its PR: nothing can be sent until an RR or a REJECT comes.
    /// Refused with 14, 1, 16.
    ///
    /// ```
    /// use pepperknoll::{PacketNumber, Refusal, Sender};
    ///
    /// let mut end = Sender::fresh();
    /// assert_eq!(end.send(), Ok(PacketNumber(0)));
    /// end.not_ready(PacketNumber(1))?;
    /// assert!(end.held_off());
    /// assert_eq!(end.send(), Err(Refusal::WindowClosed));
    /// end.acknowledge(PacketNumber(1))?; // a PR that comes with DATA does not lift the hold
    /// assert_eq!(end.send(), Err(Refusal::WindowClosed));
    /// end.ready(PacketNumber(1))?;
    /// assert_eq!(end.send(), Ok(PacketNumber(1)));
    /// # Ok::<(), Refusal>(())
    /// ```
    #[inline]
    pub fn not_ready(&mut self, pr: PacketNumber) -> Result<(), Refusal> {
        self.take(raw::pk_sender_not_ready, pr)
    }

    /// Takes a REJECT that came in, by its PR: the end is no longer held off, and the next PS stays
    /// as it is. Refused with 14, 1, 16.
    #[inline]
    pub fn reject(&mut self, pr: PacketNumber) -> Result<(), Refusal> {
        self.take(raw::pk_sender_reject, pr)
    }

    /// One of the four calls that take a PR.
    #[inline]
    fn take(&mut self, call: TakePr, pr: PacketNumber) -> Result<(), Refusal> {
        let state = &mut self.0;
        // SAFETY: the state is lent whole, with its own length.
        let answer = unsafe { call(state.as_mut_ptr(), state.len(), pr.0) };
        values(answer.into()).map(|_| ())
    }
}

/// A call on a sending end, as the library declares it.
type TakePr = unsafe extern "C" fn(state: *mut u8, state_len: usize, pr: u8) -> u32;

impl Default for Sender {
    fn default() -> Self {
        Sender::fresh()
    }
}

/// The receiving end of the flow window: the expected PS, a mark that stands until a
/// packet is accepted, and a count of packets not yet told.
///
/// ```
/// use pepperknoll::{PacketNumber, Receiver, Refusal};
///
/// let mut end = Receiver::fresh();
/// assert_eq!(end.receive(PacketNumber(3)), Err(Refusal::FirstNotZero));
/// for ps in 0..7 {
///     assert_eq!(end.receive(PacketNumber(ps)), Ok(false));
/// }
/// assert_eq!(end.receive(PacketNumber(7)), Ok(true)); // a PR is due
/// assert_eq!(end.tell(), Ok(PacketNumber(8)));
/// ```
#[derive(Clone, Copy, Debug, PartialEq, Eq, Hash)]
pub struct Receiver([u8; Receiver::BYTES]);

impl Receiver {
    /// The bytes of a state: `[0]` expected PS, `[1]` 1 until a packet is accepted and then 0,
    /// `[2]` count of packets not yet told.
    pub const BYTES: usize = 3;

    /// A state that has accepted nothing.
    #[inline]
    pub fn fresh() -> Self {
        let mut bytes = [0; Self::BYTES];
        // SAFETY: the array is lent whole, with its own length.
        let answer = unsafe { raw::pk_receiver_fresh(bytes.as_mut_ptr(), bytes.len()) };
        debug_assert_eq!(answer, 0);
        Receiver(bytes)
    }

    /// A state from bytes that were stored. Any bytes are taken; what is no state in good order
    /// is refused by the calls.
    #[inline]
    pub const fn from_bytes(bytes: [u8; Self::BYTES]) -> Self {
        Receiver(bytes)
    }

    /// The bytes of this state, to be stored.
    #[inline]
    pub const fn as_bytes(&self) -> &[u8; Self::BYTES] {
        &self.0
    }

    /// Whether this is a state in good order.
    #[inline]
    pub fn in_order(&self) -> bool {
        // SAFETY: the state is lent whole, with its own length.
        unsafe { raw::pk_receiver_in_order(self.0.as_ptr(), self.0.len()) == 0 }
    }

    /// Takes the PS of a packet that came in; says whether a PR is due. Refused with 14, 1, then
    /// 12, 10 or 11.
    #[inline]
    pub fn receive(&mut self, ps: PacketNumber) -> Result<bool, Refusal> {
        let state = &mut self.0;
        // SAFETY: the state is lent whole, with its own length.
        let answer = unsafe { raw::pk_receiver_receive(state.as_mut_ptr(), state.len(), ps.0) };
        values(answer.into()).map(|due| due & 1 == 1)
    }

    /// The PR to send now; all packets taken are then told. Refused with 14.
    #[inline]
    pub fn tell(&mut self) -> Result<PacketNumber, Refusal> {
        // SAFETY: the state is lent whole, with its own length.
        let answer = unsafe { raw::pk_receiver_tell(self.0.as_mut_ptr(), self.0.len()) };
        values(answer.into()).map(|pr| PacketNumber(pr as u8))
    }
}

impl Default for Receiver {
    fn default() -> Self {
        Receiver::fresh()
    }
}
