//! The calls of libpicky_der, with slices in place of pointers. `picky_der` has types over them.
//!
//! Each `unsafe` block meets what the header asks of a caller: a slice is one block that isn't null, of at most `isize::MAX` bytes, and
//! what `&mut` refers to overlaps nothing else.
#![deny(missing_docs)]

#[allow(dead_code)]
#[rustfmt::skip]
mod raw;

pub use raw::{
    Element, Place, PICKY_DER_END, PICKY_DER_INVALID, PICKY_DER_NO_MEMORY, PICKY_DER_NO_PLACE, PICKY_DER_NO_ROOM, PICKY_DER_NO_TABLE,
    PICKY_DER_NO_VALUE, PICKY_DER_OK, PICKY_DER_OTHER, PICKY_DER_TRUNCATED, PICKY_DER_UNKNOWN_TYPE, PICKY_DER_UNSUPPORTED,
};

/// Checks whether bytes are exactly one message of the type with this number. Returns the code and the position.
pub fn check(number: u32, bytes: &[u8]) -> (u32, usize) {
    let mut position = 0;
    let code = unsafe { raw::picky_der_check(number, bytes.as_ptr(), bytes.len(), &mut position) };
    (code, position)
}

/// Appends to the first `used` bytes the path of the element for which `check` refuses bytes. Returns the code.
pub fn path(number: u32, bytes: &[u8], out: &mut [u8], used: &mut usize) -> u32 {
    unsafe { raw::picky_der_path(number, bytes.as_ptr(), bytes.len(), out.as_mut_ptr(), out.len(), used) }
}

/// Appends the JSON of a message to the first `used` bytes. Returns the code and the position, both as of `check` if it refuses the bytes.
pub fn to_json(number: u32, bytes: &[u8], out: &mut [u8], used: &mut usize) -> (u32, usize) {
    let mut position = 0;
    let code = unsafe { raw::picky_der_to_json(number, bytes.as_ptr(), bytes.len(), &mut position, out.as_mut_ptr(), out.len(), used) };
    (code, position)
}

/// Appends the DER of the message with this JSON to the first `used` bytes, or why it is none. Returns the code.
pub fn from_json(number: u32, json: &[u8], out: &mut [u8], used: &mut usize) -> u32 {
    unsafe { raw::picky_der_from_json(number, json.as_ptr(), json.len(), out.as_mut_ptr(), out.len(), used) }
}

/// Appends the DER of the message with this BER to the first `used` bytes, or why it is none. Returns the code.
pub fn from_ber(number: u32, bytes: &[u8], out: &mut [u8], used: &mut usize) -> u32 {
    unsafe { raw::picky_der_from_ber(number, bytes.as_ptr(), bytes.len(), out.as_mut_ptr(), out.len(), used) }
}

/// Returns the code, and the element at the front of the bytes if it is `PICKY_DER_OK`.
pub fn front(bytes: &[u8]) -> (u32, Element) {
    let mut element = Element::default();
    let code = unsafe { raw::picky_der_front(bytes.as_ptr(), bytes.len(), &mut element) };
    (code, element)
}

/// Lists elements, as many as there is room for. Returns the code, how many there are, and the position.
pub fn elements(bytes: &[u8], room: &mut [Element]) -> (u32, usize, usize) {
    let (mut count, mut position) = (0, 0);
    let code = unsafe { raw::picky_der_elements(bytes.as_ptr(), bytes.len(), room.as_mut_ptr(), room.len(), &mut count, &mut position) };
    (code, count, position)
}

/// Goes over the element at a place, and moves the place. Returns the code, and the element if it is `PICKY_DER_OK`.
pub fn next(bytes: &[u8], place: &mut Place, ends: &mut [usize]) -> (u32, Element) {
    let mut element = Element::default();
    let code = unsafe { raw::picky_der_next(bytes.as_ptr(), bytes.len(), place, ends.as_mut_ptr(), ends.len(), &mut element) };
    (code, element)
}

/// Appends an element to the first `used` bytes. Returns the code.
pub fn put(out: &mut [u8], used: &mut usize, tag: u8, content: &[u8]) -> u32 {
    unsafe { raw::picky_der_put(out.as_mut_ptr(), out.len(), used, tag, content.as_ptr(), content.len()) }
}

/// Puts the elements from `start` to `used` in the order of their encodings. Returns the code.
pub fn sort(out: &mut [u8], used: usize, start: usize) -> u32 {
    unsafe { raw::picky_der_sort(out.as_mut_ptr(), out.len(), used, start) }
}

/// Makes the bytes from `start` to `used` the content of an element. Returns the code.
pub fn wrap(out: &mut [u8], used: &mut usize, start: usize, tag: u8) -> u32 {
    unsafe { raw::picky_der_wrap(out.as_mut_ptr(), out.len(), used, start, tag) }
}
