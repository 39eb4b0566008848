//! The part of `der_types` that paths use, where a time is one by its length alone.

/// Whether the bytes are numbers in base 128, each in the fewest bytes.
pub fn is_subidentifiers(bytes: &[u8]) -> bool {
    let mut is_inside = false;
    for byte in bytes {
        if !is_inside && *byte == 0x80 {
            return false;
        }
        is_inside = *byte >= 0x80;
    }
    !is_inside && !bytes.is_empty()
}

pub fn is_generalized_time(bytes: &[u8]) -> bool {
    bytes.len() > 14
}

pub fn is_utc_time(bytes: &[u8]) -> bool {
    bytes.len() == 13
}
