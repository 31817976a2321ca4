//! Byte slices as they cross to a Rattle library: a pointer and a count.

use std::{marker::PhantomData, ptr};

#[repr(C)]
pub(crate) struct Slice<'a, P> {
    first: P,
    count: usize,
    lent: PhantomData<&'a P>,
}

/// Where there are no bytes any pointer will do; it is the one that C has for that.
pub(crate) fn lend(bytes: &[u8]) -> Slice<'_, *const u8> {
    Slice {
        first: if bytes.is_empty() {
            ptr::null()
        } else {
            bytes.as_ptr()
        },
        count: bytes.len(),
        lent: PhantomData,
    }
}

pub(crate) fn lend_mut(bytes: &mut [u8]) -> Slice<'_, *mut u8> {
    Slice {
        first: if bytes.is_empty() {
            ptr::null_mut()
        } else {
            bytes.as_mut_ptr()
        },
        count: bytes.len(),
        lent: PhantomData,
    }
}
