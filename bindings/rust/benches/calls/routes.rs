//! ROUTE packets: written with a table and optional data, and read.

use std::hint::black_box;

use pepperknoll::raw;
use plain::frame::Form;
use plain::{route_packet, Refusal};

use super::version::{done, nothing, Best, Library, Nothing, Plain, Version};
use super::{looped, Run};

/// A route list of three entries, and seventeen bytes of data.
const TABLE: [u8; 8] = [0x59, 0x12, 0x40, 0x50, 0x12, 0x79, 1, 2];
const DATA: [u8; 17] = [0x55; 17];

/// The call that the other kinds have no use for.
pub trait Routes: Version {
    fn write_route(form: Self::Form, table: &[u8], data: &[u8], out: &mut [u8]) -> u64;
}

impl Routes for Library {
    #[inline(always)]
    fn write_route(form: u8, table: &[u8], data: &[u8], out: &mut [u8]) -> u64 {
        // SAFETY: each list is lent whole with its own length, and `out` is borrowed alone.
        done(unsafe {
            raw::pk_route_write(
                form,
                1,
                1,
                table.as_ptr(),
                table.len(),
                data.as_ptr(),
                data.len(),
                out.as_mut_ptr(),
                out.len(),
            )
        })
    }
}

impl Routes for Plain {
    #[inline(always)]
    fn write_route(form: Form, table: &[u8], data: &[u8], out: &mut [u8]) -> u64 {
        #[inline(never)]
        fn call(form: Form, table: &[u8], data: &[u8], out: &mut [u8]) -> Result<usize, Refusal> {
            route_packet::write(form, true, table, Some(data), out)
        }
        call(form, table, data, out).unwrap() as u64
    }
}

impl Routes for Best {
    #[inline(always)]
    fn write_route(form: Form, table: &[u8], data: &[u8], out: &mut [u8]) -> u64 {
        #[inline(never)]
        fn call(form: Form, table: &[u8], data: &[u8], out: &mut [u8]) -> Result<usize, Refusal> {
            best::frame::write_route(form, true, table, Some(data), out)
        }
        call(form, table, data, out).unwrap() as u64
    }
}

impl Routes for Nothing {
    #[inline(always)]
    fn write_route(_: Form, _: &[u8], _: &[u8], _: &mut [u8]) -> u64 {
        nothing()
    }
}

pub fn write_route<V: Routes>() -> Run {
    let (form, mut out) = (V::form(Form::LongUplink), [0; 160]);
    looped(move || {
        let (table, data) = (black_box(&TABLE[..]), black_box(&DATA[..]));
        V::write_route(black_box(form), table, data, black_box(&mut out[..]))
    })
}

pub fn read_route<V: Version>() -> Run {
    let (form, mut frame) = (Form::LongUplink, vec![0; 160]);
    let length = route_packet::write(form, true, &TABLE, Some(&DATA), &mut frame).unwrap();
    frame.truncate(length);
    let form = V::form(form);
    looped(move || V::read(black_box(form), black_box(&frame[..])))
}
