//! Statuses and buffers of calls.
//!
//! SAFETY, of every call of this crate: each pointer with a length is that of one slice that is borrowed for the call,
//! and each other pointer is that of one whole value. libaclck writes only to these, and keeps none of them.

use crate::raw::{self, Buffer, Fault};
use crate::Error;

/// Returns nothing if the call is done, and otherwise the error.
pub fn done(status: u32, fault: Fault) -> Result<(), Error> {
    match status {
        raw::DONE => Ok(()),
        raw::REFUSED => Err(Error::Refused(fault)),
        raw::BAD_ARGUMENT => Err(Error::BadArgument),
        _ => Err(Error::Memory),
    }
}

/// Makes a call that answers with one value, and returns the value.
pub fn answered<T: Default>(call: impl FnOnce(&mut T, &mut Fault) -> u32) -> Result<T, Error> {
    let (mut answer, mut fault) = (T::default(), Fault::default());
    let status = call(&mut answer, &mut fault);
    done(status, fault).map(|()| answer)
}

/// Makes a call that writes into a buffer, and returns what it wrote. The first buffer has room for `room` values.
pub fn made<T: Clone + Default>(
    room: usize, mut call: impl FnMut(Buffer<T>, &mut usize, &mut Fault) -> u32,
) -> Result<Vec<T>, Error> {
    let mut out = vec![T::default(); room];
    loop {
        let (mut needed, mut fault) = (0, Fault::default());
        let status = call(Buffer::of(&mut out), &mut needed, &mut fault);
        if status == raw::SHORT {
            out.resize(needed, T::default());
            continue;
        }
        done(status, fault)?;
        out.truncate(needed);
        return Ok(out);
    }
}

/// Makes a call that writes a short text about a number, and returns the text, if the number means something.
pub fn short_text(mut call: impl FnMut(Buffer<u8>, &mut usize) -> u32) -> Option<String> {
    made(64, |out, needed, _| call(out, needed)).ok().map(|bytes| String::from_utf8_lossy(&bytes).into_owned())
}
