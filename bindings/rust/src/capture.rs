use std::iter::FusedIterator;
use std::ops::Range;

use crate::answer::values;
use crate::{raw, Form, Refusal};

/// The most frames of a capture.
pub const MOST_CAPTURED_FRAMES: usize = 512;

/// The longest frame of a capture, in bytes.
pub const LONGEST_CAPTURED_FRAME: usize = 160;

/// The longest capture, in bytes: its header and 512 frames of 160 bytes.
pub const LONGEST_CAPTURE: usize = 83_980;

/// Saves frames as a capture to the front of `out`; answers the length of the file. `frames` holds
/// them one after the other, of these lengths. They are not read: there may be none, and any of
/// them may be empty. Bytes beyond the file keep what they held. Refused with 1, 2 (the lengths do
/// not sum to the data), 4 (over 512 frames, or one over 160 bytes), 5.
///
/// The file has 8 bytes, 4 for each frame and 4 more, and the frames.
///
/// ```
/// use pepperknoll::{save, Capture, Form, Refusal};
///
/// let frames = b"\x60\x05\x37\0\0\0\0\0\0\0\x5C\x09\x32\x41\0\0\0\0\0\0";
/// let mut out = [0xEE; 42];
/// assert_eq!(save(Form::LongUplink, &[10, 10], frames, &mut out), Ok(40));
/// assert_eq!(out[..8], [0, 0, 0, 2, 0, 0, 0, 17]); // the count and the form
/// assert_eq!(out[8..20], [0, 0, 0, 20, 0, 0, 0, 30, 0, 0, 0, 40]); // the offsets
/// assert_eq!((&out[20..40], &out[40..]), (&frames[..], &[0xEE; 2][..]));
///
/// let refused = save(Form::LongUplink, &[10, 9], frames, &mut out);
/// assert_eq!(refused, Err(Refusal::Malformed));
/// let refused = save(Form::LongUplink, &[10, 10], frames, &mut out[..39]);
/// assert_eq!(refused, Err(Refusal::OutputTooShort));
/// ```
#[inline]
pub fn save(
    form: Form,
    lengths: &[usize],
    frames: &[u8],
    out: &mut [u8],
) -> Result<usize, Refusal> {
    // SAFETY: each list is lent whole with its own length; `out` is borrowed alone, so it
    // overlaps nothing.
    let answer = unsafe {
        raw::pk_capture_save(
            form.number(),
            lengths.as_ptr(),
            lengths.len(),
            frames.as_ptr(),
            frames.len(),
            out.as_mut_ptr(),
            out.len(),
        )
    };
    values(answer).map(|length| length as usize)
}

/// A capture that was opened: the frames of a file, in order.
///
/// ```
/// use pepperknoll::{read_frame, save, Capture, Form, Refusal};
///
/// let frames = b"\x60\x05\x37\0\0\0\0\0\0\0\x5C\x09\x32\x41\0\0\0\0\0\0";
/// let mut file = [0; 44];
/// let length = save(Form::LongUplink, &[10, 0, 10], frames, &mut file)?;
///
/// let capture = Capture::open(&file[..length])?;
/// assert_eq!((capture.form(), capture.len()), (Form::LongUplink, 3));
/// assert_eq!(capture.frame(0), Some(&frames[..10]));
/// assert_eq!(capture.frame(1), Some(&[][..]));
/// assert_eq!(capture.frame(3), None);
///
/// let good = |frame: &&[u8]| read_frame(capture.form(), frame).is_ok();
/// assert_eq!(capture.into_iter().filter(good).count(), 2); // an empty frame does not read
/// # Ok::<(), Refusal>(())
/// ```
#[derive(Clone, Copy, Debug, PartialEq, Eq, Hash)]
pub struct Capture<'a> {
    file: &'a [u8],
    form: Form,
    count: usize,
}

impl<'a> Capture<'a> {
    /// Opens a file, all of which is judged; the frames are not read. Refused with 2 (no whole
    /// count and form), 1 (the form), 4 (over 512 frames), 2 (the header is cut, or the offsets
    /// fall or do not run from the header's end to the file's end), 4 (a frame over 160 bytes).
    ///
    /// ```
    /// use pepperknoll::{Capture, Form, Refusal};
    ///
    /// let mut file = [0, 0, 0, 0, 0, 0, 0, 3, 0, 0, 0, 12];
    /// let capture = Capture::open(&file)?;
    /// assert_eq!((capture.form(), capture.is_empty()), (Form::LongDownlink(3), true));
    /// assert_eq!(Capture::open(&file[..11]), Err(Refusal::Malformed));
    /// file[4] = 1; // all 32 bits are the form
    /// assert_eq!(Capture::open(&file), Err(Refusal::OutOfRange));
    /// # Ok::<(), Refusal>(())
    /// ```
    #[inline]
    pub fn open(file: &'a [u8]) -> Result<Self, Refusal> {
        // SAFETY: the list is lent whole with its own length.
        let answer = unsafe { raw::pk_capture_open(file.as_ptr(), file.len()) };
        values(answer).map(|values| Capture {
            file,
            form: Form::of(values as u8),
            count: (values >> 8) as usize,
        })
    }

    /// The form of all frames.
    #[inline]
    pub const fn form(&self) -> Form {
        self.form
    }

    /// How many frames there are.
    #[inline]
    pub const fn len(&self) -> usize {
        self.count
    }

    /// Whether there are no frames.
    #[inline]
    pub const fn is_empty(&self) -> bool {
        self.count == 0
    }

    /// A frame by its index, as a part of the file; there is none from [`len`](Self::len) on.
    #[inline]
    pub fn frame(&self, i: usize) -> Option<&'a [u8]> {
        (i < self.count).then(|| &self.file[place(self.file, i)])
    }

    /// The frames, in order.
    #[inline]
    pub fn frames(&self) -> Frames<'a> {
        Frames {
            capture: *self,
            left: 0..self.count,
        }
    }
}

impl<'a> IntoIterator for Capture<'a> {
    type Item = &'a [u8];
    type IntoIter = Frames<'a>;

    #[inline]
    fn into_iter(self) -> Frames<'a> {
        self.frames()
    }
}

impl<'a> IntoIterator for &Capture<'a> {
    type Item = &'a [u8];
    type IntoIter = Frames<'a>;

    #[inline]
    fn into_iter(self) -> Frames<'a> {
        self.frames()
    }
}

/// The frames of a [`Capture`], each as a part of the file.
#[derive(Clone, Debug)]
pub struct Frames<'a> {
    capture: Capture<'a>,
    /// The indexes of those that have not been given yet.
    left: Range<usize>,
}

impl<'a> Iterator for Frames<'a> {
    type Item = &'a [u8];

    #[inline]
    fn next(&mut self) -> Option<&'a [u8]> {
        self.left.next().and_then(|i| self.capture.frame(i))
    }

    #[inline]
    fn size_hint(&self) -> (usize, Option<usize>) {
        self.left.size_hint()
    }

    #[inline]
    fn nth(&mut self, n: usize) -> Option<&'a [u8]> {
        self.left.nth(n).and_then(|i| self.capture.frame(i))
    }
}

impl<'a> DoubleEndedIterator for Frames<'a> {
    #[inline]
    fn next_back(&mut self) -> Option<&'a [u8]> {
        self.left.next_back().and_then(|i| self.capture.frame(i))
    }
}

impl ExactSizeIterator for Frames<'_> {}

impl FusedIterator for Frames<'_> {}

/// Where a frame is in a file, the first one having index 0: always a part of the file.
///
/// It is the frame's place in every file that [`Capture::open`] accepts. In any other file the two
/// offsets of the frame alone are looked at, so that frames can be looked for in a damaged one. The
/// answer is `0..0` if the file says that it has no such frame, has not both offsets whole, or
/// these fall or end past the file.
///
/// ```
/// use pepperknoll::{place, save, Capture, Form, Refusal};
///
/// let mut file = [0; 24];
/// save(Form::LongUplink, &[3, 1], b"one2", &mut file)?;
/// assert_eq!(place(&file, 0), 20..23);
/// assert_eq!(place(&file, 2), 0..0);
///
/// let cut = &file[..23]; // the second frame is lost
/// assert_eq!(Capture::open(cut), Err(Refusal::Malformed));
/// assert_eq!(&cut[place(cut, 0)], b"one");
/// assert_eq!(place(cut, 1), 0..0);
/// # Ok::<(), Refusal>(())
/// ```
#[inline]
pub fn place(file: &[u8], i: usize) -> Range<usize> {
    // SAFETY: the list is lent whole with its own length.
    let answer = unsafe { raw::pk_capture_place(file.as_ptr(), file.len(), i) };
    let (start, length) = (answer as u32 as usize, (answer >> 32) as usize);
    start..start + length
}
