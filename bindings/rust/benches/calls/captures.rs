//! Captures: the largest one saved, opened, and a frame found in it; and a CLEAR REQUEST exported.

use std::hint::black_box;
use std::ops::Range;

use pepperknoll::raw;
use plain::capture::{Capture, LONGEST_FRAME, MOST_FRAMES};
use plain::frame::Form;
use plain::{capture, Fault, Refusal};

use super::version::{done, nothing, Best, Library, Nothing, Plain, Version};
use super::{looped, some_bytes, Run, CAPTURE};

const CHANNEL: u16 = 4095;
const REQUEST: [u8; 10] = [0x58, 0x09, 0x32, 0x41, 0x8D, 0xA2, 0x07, 0, 0, 0];

/// The calls on captures, and the export.
pub trait Captures: Version {
    fn save(form: Self::Form, lengths: &[usize], frames: &[u8], out: &mut [u8]) -> u64;
    /// Gives the number of frames.
    fn open(file: &[u8]) -> u64;
    /// Gives where the frame ends.
    fn place(file: &[u8], i: usize) -> u64;
    /// Gives the five bytes as one number.
    fn export(form: Self::Form, frame: &[u8]) -> u64;
}

// SAFETY, for every call below: each list is lent whole with its own length, and a list that is
// written to is borrowed alone.
impl Captures for Library {
    #[inline(always)]
    fn save(form: u8, lengths: &[usize], frames: &[u8], out: &mut [u8]) -> u64 {
        done(unsafe {
            raw::pk_capture_save(
                form,
                lengths.as_ptr(),
                lengths.len(),
                frames.as_ptr(),
                frames.len(),
                out.as_mut_ptr(),
                out.len(),
            )
        })
    }

    #[inline(always)]
    fn open(file: &[u8]) -> u64 {
        done(unsafe { raw::pk_capture_open(file.as_ptr(), file.len()) }) >> 8
    }

    #[inline(always)]
    fn place(file: &[u8], i: usize) -> u64 {
        let answer = unsafe { raw::pk_capture_place(file.as_ptr(), file.len(), i) };
        (answer & 0xFFFF_FFFF) + (answer >> 32)
    }

    #[inline(always)]
    fn export(form: u8, frame: &[u8]) -> u64 {
        done(unsafe { raw::pk_clear_export(form, CHANNEL, frame.as_ptr(), frame.len()) })
    }
}

/// The five bytes of an export, the first one lowest.
#[inline(always)]
fn as_number([first, second, third, fourth, fifth]: [u8; 5]) -> u64 {
    u64::from_le_bytes([first, second, third, fourth, fifth, 0, 0, 0])
}

/// A Rust version. The two open a file and export a frame by calls with answers of their own.
macro_rules! rust_captures {
    ($name:ident, $package:ident, $open:expr, $opened:ty, $frames:expr, $refused:ty) => {
        impl Captures for $name {
            #[inline(always)]
            fn save(form: Form, lengths: &[usize], frames: &[u8], out: &mut [u8]) -> u64 {
                #[inline(never)]
                fn call(
                    form: Form,
                    lengths: &[usize],
                    frames: &[u8],
                    out: &mut [u8],
                ) -> Result<usize, Refusal> {
                    $package::capture::save(form, lengths, frames, out)
                }
                call(form, lengths, frames, out).unwrap() as u64
            }

            #[inline(always)]
            fn open(file: &[u8]) -> u64 {
                #[inline(never)]
                fn call(file: &[u8]) -> Result<$opened, Refusal> {
                    $open(file)
                }
                $frames(call(file).unwrap()) as u64
            }

            #[inline(always)]
            fn place(file: &[u8], i: usize) -> u64 {
                #[inline(never)]
                fn call(file: &[u8], i: usize) -> Range<usize> {
                    $package::capture::place(file, i)
                }
                call(file, i).end as u64
            }

            #[inline(always)]
            fn export(form: Form, frame: &[u8]) -> u64 {
                #[inline(never)]
                fn call(form: Form, channel: u16, frame: &[u8]) -> Result<[u8; 5], $refused> {
                    $package::export::clear(form, channel, frame)
                }
                as_number(call(form, CHANNEL, frame).unwrap())
            }
        }
    };
}

rust_captures!(
    Plain,
    plain,
    Capture::open,
    Capture<'_>,
    |capture: Capture<'_>| capture.count,
    Fault
);
rust_captures!(
    Best,
    best,
    best::capture::open,
    (Form, usize),
    |(_, count)| count,
    Refusal
);

impl Captures for Nothing {
    #[inline(always)]
    fn save(_: Form, _: &[usize], _: &[u8], _: &mut [u8]) -> u64 {
        nothing()
    }

    #[inline(always)]
    fn open(_: &[u8]) -> u64 {
        nothing()
    }

    #[inline(always)]
    fn place(_: &[u8], _: usize) -> u64 {
        nothing()
    }

    #[inline(always)]
    fn export(_: Form, _: &[u8]) -> u64 {
        nothing()
    }
}

const LENGTHS: [usize; MOST_FRAMES] = [LONGEST_FRAME; MOST_FRAMES];

fn some_frames() -> Vec<u8> {
    some_bytes(MOST_FRAMES * LONGEST_FRAME)
}

pub fn save<V: Captures>() -> Run {
    let (form, frames) = (V::form(Form::LongUplink), some_frames());
    let mut out = vec![0; CAPTURE];
    looped(move || {
        let (lengths, frames) = (black_box(&LENGTHS[..]), black_box(&frames[..]));
        V::save(black_box(form), lengths, frames, black_box(&mut out[..]))
    })
}

/// The largest capture.
fn capture_file() -> Vec<u8> {
    let mut file = vec![0; CAPTURE];
    capture::save(Form::LongUplink, &LENGTHS, &some_frames(), &mut file).unwrap();
    file
}

pub fn open<V: Captures>() -> Run {
    let file = capture_file();
    looped(move || V::open(black_box(&file[..])))
}

/// Every frame of the largest capture by turns.
pub fn place<V: Captures>() -> Run {
    let (file, mut i) = (capture_file(), 0);
    looped(move || {
        i = (i + 1) % MOST_FRAMES;
        V::place(black_box(&file[..]), i)
    })
}

pub fn export<V: Captures>() -> Run {
    let form = V::form(Form::LongUplink);
    looped(move || V::export(black_box(form), black_box(&REQUEST[..])))
}
